/*
 * Tests explain_answer on the request lines of standard input: the text fits
 * its buffer, is cut where the buffer is shorter, and nothing else is written.
 */
#include "explain.h"

#include <stdio.h>
#include <stdlib.h>
#include <string.h>

#define FILL 170

static uint8_t image[LOCK_BOARD_IMAGE_LEN], journal[LOCK_BOARD_JOURNAL_ROOM];
static uint8_t labels[EXPLAIN_LABELS_LEN];
static unsigned long number, explained, longest;

static void fail(const char *what, size_t room) {
    fprintf(stderr, "explain_test: line %lu, %lu bytes of text: %s\n", number, (unsigned long)room,
            what);
    exit(1);
}

/* The text of the line in a buffer of this length, with bytes around that must stay. */
static size_t explained_in(uint8_t *buffer, size_t room, const uint8_t *line, size_t len) {
    uint8_t before[EXPLAIN_LABELS_LEN];
    size_t answer;
    memcpy(before, labels, sizeof before);
    memset(buffer, FILL, EXPLAIN_TEXT_LEN + 2);
    answer = explain_answer((char *)buffer + 1, room, number, image, labels, line, len, journal);
    if (buffer[0] != FILL)
        fail("the byte before the text was changed", room);
    for (size_t i = room + 1; i < EXPLAIN_TEXT_LEN + 2; i++)
        if (buffer[i] != FILL)
            fail("a byte after the text was changed", room);
    if (answer > 0 && memcmp(before, labels, sizeof before) != 0)
        fail("a refusal changed the labels", room);
    return answer;
}

static void test_line(const uint8_t *line, size_t len) {
    uint8_t whole[EXPLAIN_TEXT_LEN + 2], cut[EXPLAIN_TEXT_LEN + 2];
    size_t all;
    number++;
    lock_board_line(image, sizeof image, line, len, journal, sizeof journal, 0);
    all = explained_in(whole, EXPLAIN_TEXT_LEN, line, len);
    if ((all > 0) != (memcmp(journal, "REFUSE", 6) == 0))
        fail("a text and no refusal, or a refusal and no text", EXPLAIN_TEXT_LEN);
    if (all + 1 >= EXPLAIN_TEXT_LEN)
        fail("the text does not fit", EXPLAIN_TEXT_LEN);
    for (size_t i = 1; i <= all; i++)
        if (whole[i] < 32 || whole[i] > 126)
            fail("a byte outside 32 to 126", EXPLAIN_TEXT_LEN);
    explained += all > 0;
    longest = all > longest ? all : longest;
    for (size_t room = 0; all > 0 && room <= all + 1; room++) {
        size_t answer = explained_in(cut, room, line, len);
        if (answer > room || answer + 1 < (room < all ? room : all))
            fail("another length", room);
        if (memcmp(cut + 1, whole + 1, answer) != 0)
            fail("another text", room);
    }
}

int main(void) {
    uint8_t line[LOCK_BOARD_CUT_LINE];
    size_t len = 0;
    int byte;
    lock_board_empty(image, sizeof image);
    while ((byte = getchar()) != EOF) {
        if (byte == '\n') {
            test_line(line, len);
            len = 0;
        } else if (len < sizeof line) {
            line[len++] = (uint8_t)byte;
        }
    }
    if (len > 0)
        test_line(line, len);
    printf("%lu refusals, at most %lu bytes\n", explained, longest);
    return 0;
}
