/*
 * Tests of lock_board_reach, lock_board_loop and lock_board_is_loop on a board whose
 * matrix and loops are worked out by hand: what they answer, what they refuse and in
 * which sequence, and that other bytes are kept.
 *
 * The board, with the files that programs wait for in brackets:
 *
 *     program   V      Q      J      open         holds back
 *      5        2      1             2, writing   9 (over 2)
 *      9        3      2             (3)          32 (over 3), if given
 *     14                      40     40, inquiry  15 (over 40); has record 7 of file 40
 *     15               40
 *     16                      40     40, inquiry  15 (over 40); waits for record 7 of file 40
 *     20               1
 *     21        64                   64, writing  22, 23 (over 64)
 *     22               64            (64)         21, 23 (over 64), if given
 *     23                      64
 *     24               60            60, reading  25 (over 60)
 *     25                      60     (60)         24 (over 60), if given
 *     30               1                          held at entry: not in the matrix
 *     32        1      3             1, writing   5, 20 (over 1)
 */
#include "lock_board.h"

#include <stdio.h>
#include <stdlib.h>
#include <string.h>

#define FILL   170
#define GUARDS 16 /* bytes on each side of a buffer that must be kept */

static const char *const requests[] = {
    "ENTER  14LABEL     0  0  1 40",
    "ENTER  15LABEL     0  1  0 40",
    "ENTER  16LABEL     0  0  1 40",
    "OPEN   14 40",
    "OPEN   16 40",
    "FETCH  14 40    7",
    "ENTER  23LABEL     0  0  1 64",
    "ENTER  24LABEL     0  1  0 60",
    "ENTER  25LABEL     0  0  1 60",
    "OPEN   24 60",
    "ENTER  32LABEL     1  1  0  1  3",
    "OPEN   32  1",
    "ENTER   5LABEL     1  1  0  2  1",
    "OPEN    5  2",
    "ENTER   9LABEL     1  1  0  3  2",
    "OPEN    9  3", /* UNSAFE */
    "ENTER  20LABEL     0  1  0  1",
    "ENTER  21LABEL     1  0  0 64",
    "OPEN   21 64",
    "ENTER  22LABEL     0  1  0 64",
    "OPEN   22 64",      /* WAIT */
    "OPEN   25 60",      /* WAIT */
    "FETCH  16 40    7", /* WAIT */
    "ENTER  31LABEL     0  0  0",
    "LEAVE  31", /* 9 is favoured */
    "ENTER  30LABEL     0  1  0  1",
};

static uint8_t image[LOCK_BOARD_IMAGE_LEN + 1];

static void fail(const char *what, unsigned long at) {
    fprintf(stderr, "digraph_test: %s, %lu\n", what, at);
    exit(1);
}

static void serve_requests(void) {
    uint8_t journal[LOCK_BOARD_JOURNAL_ROOM];
    lock_board_empty(image, LOCK_BOARD_IMAGE_LEN);
    for (size_t n = 0; n < sizeof requests / sizeof *requests; n++) {
        lock_board_line(image, LOCK_BOARD_IMAGE_LEN, (const uint8_t *)requests[n],
                        strlen(requests[n]), journal, sizeof journal, 0);
        if (memcmp(journal, "REFUSE", 6) == 0)
            fail("a refused request", (unsigned long)n);
    }
    if (memcmp(journal, "HELD   30", 9) != 0 || image[LOCK_BOARD_FAVOURED] != 9 ||
        memcmp(image + LOCK_BOARD_WAITING_LINE, "\x09\x16\x19\x10\x00", 5) != 0)
        fail("the board is not the one to be tested", 0);
}

/* ---- the matrix */

/* Sets the bit of program i in the row of program p. */
static void reaches(uint8_t *rows, int i, int p) {
    rows[4 * (p - 1) + (i - 1) / 8] |= (uint8_t)(1 << (i - 1) % 8);
}

/* The matrix in a buffer of which so many bytes are lent. */
static void test_matrix(size_t image_len, size_t len, uint64_t answer) {
    uint8_t before[sizeof image], found[2 * GUARDS + LOCK_BOARD_REACH_LEN], expected[sizeof found];
    memcpy(before, image, sizeof image);
    memset(found, FILL, sizeof found);
    memset(expected, FILL, sizeof expected);
    if (answer == LOCK_BOARD_REACH_LEN) {
        uint8_t *rows = expected + GUARDS;
        memset(rows, 0, LOCK_BOARD_REACH_LEN);
        reaches(rows, 32, 5);
        reaches(rows, 32, 9); /* over 5 */
        reaches(rows, 5, 9);
        reaches(rows, 32, 20);
        reaches(rows, 21, 22);
        reaches(rows, 21, 23);
        reaches(rows, 14, 15); /* 14 and 16 do not hold back each other */
        reaches(rows, 16, 15);
        reaches(rows, 24, 25);
    }
    if (lock_board_reach(image, image_len, found + GUARDS, len) != answer)
        fail("another answer for a matrix in bytes", (unsigned long)len);
    if (memcmp(found, expected, sizeof found) != 0)
        fail("another matrix, or other bytes changed, with bytes", (unsigned long)len);
    if (memcmp(before, image, sizeof image) != 0)
        fail("asking for the matrix changed the image, with bytes", (unsigned long)len);
}

static void test_matrices(void) {
    test_matrix(LOCK_BOARD_IMAGE_LEN, LOCK_BOARD_REACH_LEN, LOCK_BOARD_REACH_LEN);
    test_matrix(LOCK_BOARD_IMAGE_LEN, LOCK_BOARD_REACH_LEN + GUARDS, LOCK_BOARD_REACH_LEN);
    test_matrix(LOCK_BOARD_IMAGE_LEN, LOCK_BOARD_REACH_LEN - 1, LOCK_BOARD_BUFFER_SHORT);
    test_matrix(LOCK_BOARD_IMAGE_LEN, 0, LOCK_BOARD_BUFFER_SHORT);
    test_matrix(LOCK_BOARD_IMAGE_LEN - 1, LOCK_BOARD_REACH_LEN, LOCK_BOARD_UNSOUND);
    test_matrix(LOCK_BOARD_IMAGE_LEN + 1, 0, LOCK_BOARD_UNSOUND);
    test_matrix(0, 0, LOCK_BOARD_UNSOUND);
}

/* ---- a loop */

/* Whether a list is another with a beginning of its own. */
static int is_turned(const uint8_t *list, const char *loop, size_t count) {
    for (size_t first = 0; first < count; first++) {
        size_t n = 0;
        while (n < count && list[n] == (uint8_t)loop[(first + n) % count])
            n++;
        if (n == count)
            return 1;
    }
    return 0;
}

/*
 * The loop of a program in a buffer of which so many bytes are lent. Each program of this
 * board has one loop at most; with which of its programs it begins is free.
 */
static void test_loop(size_t image_len, uint64_t program, size_t len, uint64_t answer,
                      const char *loop) {
    uint8_t before[sizeof image], buffer[2 * GUARDS + LOCK_BOARD_LOOP_ROOM];
    const size_t count = strlen(loop), kept = GUARDS + count;
    memcpy(before, image, sizeof image);
    memset(buffer, FILL, sizeof buffer);
    if (lock_board_loop(image, image_len, program, buffer + GUARDS, len) != answer)
        fail("another answer for a loop of program", (unsigned long)program);
    if (count > 0 && !is_turned(buffer + GUARDS, loop, count))
        fail("another loop of program", (unsigned long)program);
    for (size_t i = 0; i < sizeof buffer; i++)
        if ((i < GUARDS || i >= kept) && buffer[i] != FILL)
            fail("other bytes changed with the loop of program", (unsigned long)program);
    if (memcmp(before, image, sizeof image) != 0)
        fail("asking for a loop changed the image, program", (unsigned long)program);
}

/*
 * Those that wait for a file have their loops; the others, absent and held too, and 16, which waits
 * for a record, none.
 */
static void test_loops(void) {
    const size_t all = LOCK_BOARD_IMAGE_LEN, room = LOCK_BOARD_LOOP_ROOM;
    for (uint64_t p = 1; p <= LOCK_BOARD_PROGRAMS; p++)
        if (p != 9 && p != 22 && p != 25)
            test_loop(all, p, room, 0, "");
    test_loop(all, 9, room, 3, "\x09\x20\x05");
    test_loop(all, 22, room, 2, "\x15\x16");
    test_loop(all, 25, room, 2, "\x18\x19");
    test_loop(all, 9, room + GUARDS, 3, "\x09\x20\x05");
    test_loop(all, 9, room - 1, LOCK_BOARD_BUFFER_SHORT, "");
    test_loop(all, 9, 0, LOCK_BOARD_BUFFER_SHORT, "");
    test_loop(all, 1, room - 1, LOCK_BOARD_BUFFER_SHORT, ""); /* before it is seen not to wait */
    test_loop(all, 0, room, LOCK_BOARD_OUT_OF_RANGE, "");
    test_loop(all, 33, 0, LOCK_BOARD_OUT_OF_RANGE, "");
    test_loop(all, (uint64_t)1 << 32 | 9, room, LOCK_BOARD_OUT_OF_RANGE, "");
    test_loop(all, UINT64_MAX, room, LOCK_BOARD_OUT_OF_RANGE, "");
    test_loop(all - 1, 9, room, LOCK_BOARD_UNSOUND, "");
    test_loop(all + 1, 33, 0, LOCK_BOARD_UNSOUND, "");
    test_loop(0, 0, 0, LOCK_BOARD_UNSOUND, "");
}

/* ---- the checker */

static unsigned long lists;

static void test_list(uint64_t program, uint64_t file, const void *list, size_t len,
                      uint64_t answer) {
    uint8_t before[sizeof image];
    memcpy(before, image, sizeof image);
    lists++;
    if (lock_board_is_loop(image, LOCK_BOARD_IMAGE_LEN, program, file, list, len) != answer)
        fail("another answer to list", lists);
    if (memcmp(before, image, sizeof image) != 0)
        fail("asking changed the image, list", lists);
}

/* Lists with file 3 given to program 9. */
static void test_lists_of_9(void) {
    test_list(9, 3, "\x09\x20\x05", 3, 1);
    test_list(9, 3, "\x20\x05\x09", 3, 1);
    test_list(9, 3, "\x05\x09\x20", 3, 1);
    test_list(9, 3, "\x05\x20\x09", 3, 0);             /* the wrong way round */
    test_list(9, 3, "", 0, 0);                         /* none */
    test_list(9, 3, "\x09", 1, 0);                     /* one */
    test_list(9, 3, "\x20\x05", 2, 0);                 /* the last does not hold back the first */
    test_list(9, 3, "\x05\x09", 2, 0);                 /* 9 reaches 5, but over 32 */
    test_list(9, 3, "\x09\x20\x14", 3, 0);             /* 20 holds back nobody */
    test_list(9, 3, "\x09\x20\x1e", 3, 0);             /* 30 is held */
    test_list(9, 3, "\x09\x20\x05\x09", 4, 0);         /* 9 twice */
    test_list(9, 3, "\x09\x20\x05\x09\x20\x05", 6, 0); /* all twice */
    test_list(9, 3, "\x09\x20\x05\x00", 4, 0);         /* no program */
    test_list(9, 3, "\x09\x21\x05", 3, 0);
    test_list(9, 3, "\x09\x20\x05\xff", 4, 0);
    test_list(9, 3, "\x15\x16", 2, 0); /* with file 64 given to 22 alone */
}

/* The same lists with other files, and given to others. */
static void test_other_gifts(void) {
    const uint64_t wide = (uint64_t)1 << 32;
    test_list(22, 64, "\x15\x16", 2, 1);
    test_list(22, 64, "\x16\x15", 2, 1);
    test_list(9, 2, "\x05\x09", 2, 1);     /* 9 need not wait for it: 5 writes 2, 9 would read it */
    test_list(9, 2, "\x09\x20\x05", 3, 0); /* the board as it is has no loop */
    test_list(5, 2, "\x09\x20\x05", 3, 0); /* open already */
    test_list(32, 3, "\x09\x20\x05", 3, 0);
    test_list(9, 1, "\x09\x20\x05", 3, 0); /* in none of its claims */
    test_list(9, 0, "\x09\x20\x05", 3, 0); /* no file */
    test_list(9, 65, "\x09\x20\x05", 3, 0);
    test_list(9, wide | 3, "\x09\x20\x05", 3, 0);
    test_list(9, UINT64_MAX, "\x09\x20\x05", 3, 0);
    test_list(0, 3, "\x09\x20\x05", 3, 0); /* no program */
    test_list(33, 3, "\x09\x20\x05", 3, 0);
    test_list(wide | 9, 3, "\x09\x20\x05", 3, 0);
    test_list(UINT64_MAX, 3, "\x09\x20\x05", 3, 0);
    test_list(1, 3, "\x09\x20\x05", 3, 0);  /* absent */
    test_list(30, 1, "\x09\x20\x05", 3, 0); /* held */
}

/* Files given for inquiry, and to others where some inquire. */
static void test_inquiry_gifts(void) {
    test_list(25, 60, "\x18\x19", 2, 1); /* 24 reads 60, 25 would inquire into it */
    test_list(15, 40, "\x0e\x0f", 2, 1); /* 14 inquires into 40, 15 would read it */
    test_list(15, 40, "\x0f\x10", 2, 1);
    test_list(15, 40, "\x0e\x10", 2, 0); /* two that inquire */
    test_list(16, 40, "\x0e\x10", 2, 0); /* open already: a record changes nothing */
    test_list(16, 40, "\x10\x0f", 2, 0);
    test_list(23, 64, "\x15\x17", 2, 1); /* 21 writes 64, 23 would inquire into it */
    test_list(23, 64, "\x16\x17", 2, 0); /* 22 does not have it yet */
}

/* Lists longer than any loop, the loop at their beginning. */
static void test_long_lists(void) {
    static uint8_t list[70000];
    const size_t lengths[] = {32, 33, 255, 256, 259, 65536 + 3, sizeof list};
    for (size_t n = 0; n < sizeof list; n++)
        list[n] = (uint8_t) "\x09\x20\x05"[n % 3];
    for (size_t n = 0; n < sizeof lengths / sizeof *lengths; n++)
        test_list(9, 3, list, lengths[n], 0);
    test_list(9, 3, list, 3, 1);
}

static void test_images(void) {
    const uint8_t list[] = {9, 32, 5};
    const size_t lengths[] = {0, LOCK_BOARD_IMAGE_LEN - 1, LOCK_BOARD_IMAGE_LEN + 1};
    for (size_t n = 0; n < sizeof lengths / sizeof *lengths; n++) {
        if (lock_board_is_loop(image, lengths[n], 9, 3, list, 3) != LOCK_BOARD_UNSOUND)
            fail("no refusal of an image of bytes", (unsigned long)lengths[n]);
        if (lock_board_is_loop(image, lengths[n], 0, 0, list, 0) != LOCK_BOARD_UNSOUND)
            fail("no refusal before all else of an image of bytes", (unsigned long)lengths[n]);
    }
}

/* An image of the right length whose board is not sound: 9 has the file open that it waits for. */
static void test_unsound(void) {
    uint8_t *open = image + 8 * LOCK_BOARD_PROGRAM_LEN + LOCK_BOARD_WRITE_OPEN;
    *open = 4;
    test_matrix(LOCK_BOARD_IMAGE_LEN, LOCK_BOARD_REACH_LEN, LOCK_BOARD_UNSOUND);
    test_loop(LOCK_BOARD_IMAGE_LEN, 9, LOCK_BOARD_LOOP_ROOM, LOCK_BOARD_UNSOUND, "");
    test_list(9, 3, "\x09\x20\x05", 3, LOCK_BOARD_UNSOUND);
    *open = 0;
}

/* On the empty board nobody reaches anybody, and no list is a loop. */
static void test_empty(void) {
    uint8_t empty[LOCK_BOARD_IMAGE_LEN], rows[LOCK_BOARD_REACH_LEN];
    lock_board_empty(empty, sizeof empty);
    memset(rows, FILL, sizeof rows);
    if (lock_board_reach(empty, sizeof empty, rows, sizeof rows) != sizeof rows)
        fail("no matrix of the empty board", 0);
    for (size_t i = 0; i < sizeof rows; i++)
        if (rows[i] != 0)
            fail("the empty board's matrix is not 0 at", (unsigned long)i);
    if (lock_board_loop(empty, sizeof empty, 1, rows, sizeof rows) != 0)
        fail("a loop on the empty board", 0);
    if (lock_board_is_loop(empty, sizeof empty, 1, 1, (const uint8_t *)"\x01\x02", 2) != 0)
        fail("a list is a loop on the empty board", 0);
}

int main(void) {
    serve_requests();
    test_matrices();
    test_loops();
    test_lists_of_9();
    test_other_gifts();
    test_inquiry_gifts();
    test_long_lists();
    test_images();
    test_unsound();
    test_empty();
    printf("%lu lists\n", lists);
    return 0;
}
