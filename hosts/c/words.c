#include "words.h"

#include "lock_board.h"

#include <stdio.h>
#include <string.h>

static const char *const words[] = {
    [LOCK_BOARD_REFUSAL_NOT_SOUND] = "The image holds no sound board",
    [LOCK_BOARD_REFUSAL_JOURNAL_FULL] = "The journal has no room for the answer",
    [LOCK_BOARD_REFUSAL_NO_VERB] = "The line begins with no verb",
    [LOCK_BOARD_REFUSAL_BAD_LENGTH] = "The line has a wrong length",
    [LOCK_BOARD_REFUSAL_BAD_NUMBER] = "A number is not in form or range",
    [LOCK_BOARD_REFUSAL_BAD_LABEL] = "The label has a byte outside 32 to 126",
    [LOCK_BOARD_REFUSAL_NOT_RISING] = "The files of a claim do not rise",
    [LOCK_BOARD_REFUSAL_OUT_OF_RANGE] = "The program or file number is out of range",
    [LOCK_BOARD_REFUSAL_NOT_ABSENT] = "The program has already entered",
    [LOCK_BOARD_REFUSAL_CLAIMS_MEET] = "A file is in two claims",
    [LOCK_BOARD_REFUSAL_IS_ABSENT] = "The program has not entered",
    [LOCK_BOARD_REFUSAL_IS_HELD] = "The program is held at entry",
    [LOCK_BOARD_REFUSAL_IS_WAITING] = "The program is waiting for a file or a record",
    [LOCK_BOARD_REFUSAL_NOT_CLAIMED] = "The file is in none of the claims",
    [LOCK_BOARD_REFUSAL_IS_OPEN] = "The program has the file open",
    [LOCK_BOARD_REFUSAL_NOT_OPEN] = "The program does not have the file open",
    [LOCK_BOARD_REFUSAL_BUFFER_SHORT] = "The buffer is shorter than the result",
    [LOCK_BOARD_REFUSAL_IS_RUNNING] = "The program is running",
    [LOCK_BOARD_REFUSAL_BAD_RECORD] = "The record number is out of range",
    [LOCK_BOARD_REFUSAL_NO_RECORD] = "The file is not open for inquiry, or no record is in use",
    [LOCK_BOARD_REFUSAL_HAS_RECORD] = "The program has a record in use",
};

const char *refusal_words(int refusal) {
    if (refusal < 1 || refusal >= (int)(sizeof words / sizeof words[0]))
        return NULL;
    return words[refusal];
}

size_t refusal_text(char *text, size_t text_len, unsigned long line, int refusal) {
    char whole[200];
    size_t len;
    snprintf(whole, sizeof whole, "line %lu: refusal %d: %s", line, refusal,
             refusal_words(refusal));
    len = strlen(whole) < text_len ? strlen(whole) : text_len;
    memcpy(text, whole, len);
    return len;
}

int list_refusals(void) {
    for (int refusal = 1; refusal_words(refusal); refusal++)
        printf("%d %s\n", refusal, refusal_words(refusal));
    return fflush(stdout) == 0 ? 0 : 1;
}
