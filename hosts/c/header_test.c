/* Tests that the names of lock_board.h for verbs, answers, refusals, counts and records stand for
 * what the board answers, and for what its image holds. */
#include "lock_board.h"

#include <stdio.h>
#include <stdlib.h>
#include <string.h>

static uint8_t line[LOCK_BOARD_LONGEST_LINE];

/*
 * Writes the line of a program with file 9, the claims {1, 64}, {2} and {9, 33}, with this record
 * and label.
 */
static uint64_t write_numbers(uint64_t verb, uint64_t program, uint64_t record, const char *label,
                              size_t line_len) {
    const uint8_t claims[LOCK_BOARD_CLAIMS_LEN] = {1, [7] = 128, [LOCK_BOARD_SET_LEN] = 2,
                                                   [2 * LOCK_BOARD_SET_LEN + 1] = 1, [20] = 1};
    memset(line, '#', sizeof line);
    return lock_board_write(verb, program, 9, record, claims, sizeof claims, (const uint8_t *)label,
                            strlen(label), line, line_len);
}

/* That of program 7 with record 4660. */
static uint64_t write_line(uint64_t verb, const char *label, size_t line_len) {
    return write_numbers(verb, 7, 4660, label, line_len);
}

static void fail(const char *what) {
    fprintf(stderr, "header_test: %s\n", what);
    exit(1);
}

static void test_verb(uint64_t verb, const char *expected) {
    const size_t len = strlen(expected);
    if (write_line(verb, "LABEL   ", sizeof line) != len || memcmp(line, expected, len) != 0 ||
        line[len] != '#')
        fail(expected);
}

/* An answer is the one that its name says, and leads back to the refusal's number. */
static void test_refused(const char *what, uint64_t answer, uint64_t name, int refusal,
                         uint64_t number) {
    if (answer != name || answer + number != 0 || (uint64_t)refusal != number ||
        LOCK_BOARD_REFUSED(answer) != number || line[0] != '#')
        fail(what);
}

static uint64_t serve(uint8_t *image, const char *request, uint8_t *journal) {
    return lock_board_line(image, LOCK_BOARD_IMAGE_LEN, (const uint8_t *)request, strlen(request),
                           journal, LOCK_BOARD_JOURNAL_ROOM, 0);
}

/* The REFUSE line of a request has the number of its name, and this record. */
static void test_refuse(uint8_t *image, const char *request, const char *program_and_file,
                        int refusal, const char *record) {
    uint8_t journal[LOCK_BOARD_JOURNAL_ROOM];
    char number[4];
    snprintf(number, sizeof number, "%3d", refusal);
    if (serve(image, request, journal) != LOCK_BOARD_JOURNAL_LINE ||
        memcmp(journal, "REFUSE", LOCK_BOARD_JOURNAL_PROGRAM) != 0 ||
        memcmp(journal + LOCK_BOARD_JOURNAL_PROGRAM, program_and_file, 6) != 0 ||
        memcmp(journal + LOCK_BOARD_JOURNAL_REFUSAL, number, 3) != 0 ||
        memcmp(journal + LOCK_BOARD_JOURNAL_RECORD, record, 6) != 0)
        fail(request);
}

/* A program's rows hold this: its sets for inquiry, its standing, and its file and records. */
static void test_rows(const uint8_t *image, int program, int standing, int file, const char *row) {
    const uint8_t *first = image + (program - 1) * LOCK_BOARD_PROGRAM_LEN;
    const uint8_t *second = image + LOCK_BOARD_INQUIRY + (program - 1) * LOCK_BOARD_INQUIRY_LEN;
    if (first[LOCK_BOARD_STANDING] != standing || first[LOCK_BOARD_AWAITED_FILE] != file ||
        memcmp(second, row, LOCK_BOARD_INQUIRY_LEN) != 0)
        fail("rows of a program");
}

/* Program 7 has a record of file 9 in use for which 32 waits; 4660 is 18 * 256 + 52. */
static void test_records(uint8_t *image, uint8_t *journal) {
    char user[LOCK_BOARD_INQUIRY_LEN] = {[LOCK_BOARD_INQUIRY_CLAIM + 1] = 3,
                                         [LOCK_BOARD_INQUIRY_OPEN + 1] = 1,
                                         [LOCK_BOARD_RECORD_IN_USE] = 52,
                                         [LOCK_BOARD_RECORD_IN_USE + 1] = 18};
    char waiter[LOCK_BOARD_INQUIRY_LEN] = {[LOCK_BOARD_INQUIRY_CLAIM + 1] = 1,
                                           [LOCK_BOARD_INQUIRY_OPEN + 1] = 1,
                                           [LOCK_BOARD_AWAITED_RECORD] = 52,
                                           [LOCK_BOARD_AWAITED_RECORD + 1] = 18};
    lock_board_empty(image, LOCK_BOARD_IMAGE_LEN);
    serve(image, "ENTER   7LABEL     0  0  2  9 10", journal);
    serve(image, "ENTER  32LABEL     0  0  1  9", journal);
    test_refuse(image, "FETCH   7  9 4660", "  7  9", LOCK_BOARD_REFUSAL_NO_RECORD, " 4660\n");
    test_refuse(image, "RETURN  7", "  7  0", LOCK_BOARD_REFUSAL_NO_RECORD, "    0\n");
    test_refuse(image, "CANCEL  7", "  7  0", LOCK_BOARD_REFUSAL_IS_RUNNING, "    0\n");
    serve(image, "OPEN    7  9", journal);
    serve(image, "OPEN   32  9", journal);
    serve(image, "FETCH   7  9 4660", journal);
    serve(image, "FETCH  32  9 4660", journal);
    test_refuse(image, "CLOSE   7  9", "  7  9", LOCK_BOARD_REFUSAL_HAS_RECORD, "    0\n");
    test_rows(image, 7, LOCK_BOARD_RUNNING, 9, user);
    test_rows(image, 32, LOCK_BOARD_WAITING, 9, waiter);
}

/*
 * A waiter's count stands at its place, its highest value is that of the name, and the other
 * programs' counts are 0. Programs come and go while 31 waits for what 32 writes.
 */
static void test_passed(uint8_t *image, uint8_t *journal) {
    static const char held[] = "HELD    1  0  0    0\nFAVOUR 31  1  0    0\n";
    const size_t len = sizeof held - 1;
    uint8_t counts[LOCK_BOARD_PROGRAMS] = {0};
    lock_board_empty(image, LOCK_BOARD_IMAGE_LEN);
    serve(image, "ENTER  32LABEL     1  0  0  1", journal);
    serve(image, "ENTER  31LABEL     1  0  0  1", journal);
    serve(image, "OPEN   32  1", journal);
    serve(image, "OPEN   31  1", journal);
    for (int passed = 1; passed <= LOCK_BOARD_MOST_PASSED; passed++) {
        serve(image, "ENTER   1LABEL     0  0  0", journal);
        serve(image, "LEAVE   1", journal);
        counts[30] = (uint8_t)passed;
        if (memcmp(image + LOCK_BOARD_PASSED, counts, sizeof counts) != 0)
            fail("counts");
    }
    if (serve(image, "ENTER   1LABEL     0  0  0", journal) != len ||
        memcmp(journal, held, len) != 0 || image[LOCK_BOARD_FAVOURED] != 31 ||
        image[LOCK_BOARD_AT_FAVOURING] != 2)
        fail("most passed");
}

int main(void) {
    uint8_t image[LOCK_BOARD_IMAGE_LEN], journal[LOCK_BOARD_JOURNAL_ROOM];
    test_verb(LOCK_BOARD_ENTER, "ENTER   7LABEL     2  1  2  1 64  2  9 33");
    test_verb(LOCK_BOARD_OPEN, "OPEN    7  9");
    test_verb(LOCK_BOARD_CLOSE, "CLOSE   7  9");
    test_verb(LOCK_BOARD_DROP, "DROP    7  9");
    test_verb(LOCK_BOARD_LEAVE, "LEAVE   7");
    test_verb(LOCK_BOARD_CANCEL, "CANCEL  7");
    test_verb(LOCK_BOARD_FETCH, "FETCH   7  9 4660");
    test_verb(LOCK_BOARD_RETURN, "RETURN  7");
    test_refused("no verb", write_line(LOCK_BOARD_RETURN + 1, "", sizeof line), LOCK_BOARD_NO_VERB,
                 LOCK_BOARD_REFUSAL_NO_VERB, 3);
    test_refused("bad label", write_line(LOCK_BOARD_ENTER, "LABEL", sizeof line),
                 LOCK_BOARD_BAD_LABEL, LOCK_BOARD_REFUSAL_BAD_LABEL, 6);
    test_refused("buffer short", write_line(LOCK_BOARD_LEAVE, "", 8), LOCK_BOARD_BUFFER_SHORT,
                 LOCK_BOARD_REFUSAL_BUFFER_SHORT, 17);
    test_refused("out of range",
                 write_numbers(LOCK_BOARD_LEAVE, LOCK_BOARD_PROGRAMS + 1, 0, "", sizeof line),
                 LOCK_BOARD_OUT_OF_RANGE, LOCK_BOARD_REFUSAL_OUT_OF_RANGE, 8);
    test_refused("bad record",
                 write_numbers(LOCK_BOARD_FETCH, 7, LOCK_BOARD_RECORDS + 1, "", sizeof line),
                 LOCK_BOARD_BAD_RECORD, LOCK_BOARD_REFUSAL_BAD_RECORD, 19);
    test_refused("not sound", lock_board_empty(image, 1), LOCK_BOARD_UNSOUND,
                 LOCK_BOARD_REFUSAL_NOT_SOUND, 1);
    lock_board_empty(image, sizeof image);
    test_refused("journal full",
                 lock_board_line(image, sizeof image, line, 0, journal, sizeof journal, 1),
                 LOCK_BOARD_JOURNAL_FULL, LOCK_BOARD_REFUSAL_JOURNAL_FULL, 2);
    test_records(image, journal);
    test_passed(image, journal);
    return 0;
}
