/*
 * Tests of the C entry.
 *
 *     entry_test NAME.in NAME.host    replays request lines: answers, sums and orders
 *     entry_test                      what is refused, and what is then kept
 *
 * NAME.host has for each request line the answer, the Adler-32 of the image after
 * the call and the Adler-32 of the journal after it. Each call is handed just the
 * journal that it asks for, whose bytes hold 170, and place 0. After each the order
 * is compared with one that is worked out here, by the specification's words.
 */
#include "lock_board.h"

#include <inttypes.h>
#include <stdio.h>
#include <stdlib.h>
#include <string.h>

#define FILL 170

static uint32_t adler32(const uint8_t *bytes, size_t len) {
    uint32_t a = 1, b = 0;
    for (size_t i = 0; i < len; i++) {
        a = (a + bytes[i]) % 65521;
        b = (b + a) % 65521;
    }
    return b * 65536 + a;
}

static void fail(const char *what, unsigned long at) {
    fprintf(stderr, "entry_test: %s, %lu\n", what, at);
    exit(1);
}

static FILE *open_file(const char *path) {
    FILE *file = fopen(path, "rb");
    if (!file) {
        perror(path);
        exit(1);
    }
    return file;
}

/* Reads a line, cut; the last may lack its byte 10. 0 at the end of the file. */
static int read_line(FILE *in, uint8_t *line, size_t *len) {
    int byte, any = 0;
    *len = 0;
    while ((byte = getc(in)) != EOF) {
        any = 1;
        if (byte == '\n')
            break;
        if (*len < LOCK_BOARD_CUT_LINE)
            line[(*len)++] = (uint8_t)byte;
    }
    return any;
}

static void all_hold(const uint8_t *bytes, size_t len, int fill, const char *what) {
    for (size_t i = 0; i < len; i++)
        if (bytes[i] != fill)
            fail(what, (unsigned long)i);
}

/* A program's rows in an image. */
static const uint8_t *first_row(const uint8_t *image, int program) {
    return image + LOCK_BOARD_PROGRAM_LEN * (program - 1);
}

static const uint8_t *second_row(const uint8_t *image, int program) {
    return image + LOCK_BOARD_INQUIRY + LOCK_BOARD_INQUIRY_LEN * (program - 1);
}

/* A set of files: a bit for each, the lowest byte first. */
static uint64_t set_at(const uint8_t *bytes) {
    uint64_t set = 0;
    for (int i = LOCK_BOARD_FILES / 8 - 1; i >= 0; i--)
        set = set << 8 | bytes[i];
    return set;
}

/*
 * "W of i meets V or Q of j, or R of i meets V of j", "also if I of i meets V or Q of j, or W or R
 * of i meets J of j".
 */
static int holds_back(const uint8_t *image, int i, int j) {
    const uint64_t v = set_at(first_row(image, j) + LOCK_BOARD_WRITE_CLAIM);
    const uint64_t q = set_at(first_row(image, j) + LOCK_BOARD_READ_CLAIM);
    const uint64_t claim_j = set_at(second_row(image, j) + LOCK_BOARD_INQUIRY_CLAIM);
    const uint64_t w = set_at(first_row(image, i) + LOCK_BOARD_WRITE_OPEN);
    const uint64_t r = set_at(first_row(image, i) + LOCK_BOARD_READ_OPEN);
    const uint64_t open_i = set_at(second_row(image, i) + LOCK_BOARD_INQUIRY_OPEN);
    return (w & (v | q)) || (r & v) || (open_i & (v | q)) || ((w | r) & claim_j);
}

/* Whether no other remaining program holds back p. */
static int is_free(const uint8_t *image, const int *remains, int p) {
    for (int i = 1; i <= LOCK_BOARD_PROGRAMS; i++)
        if (i != p && remains[i] && holds_back(image, i, p))
            return 0;
    return 1;
}

/* The carried order: the lowest-numbered free program, then the same for the rest. */
static size_t worked_order(const uint8_t *image, uint8_t *order) {
    int remains[LOCK_BOARD_PROGRAMS + 1] = {0};
    size_t admitted = 0, count = 0;
    for (int p = 1; p <= LOCK_BOARD_PROGRAMS; p++) {
        const int standing = first_row(image, p)[LOCK_BOARD_STANDING];
        remains[p] = standing == LOCK_BOARD_RUNNING || standing == LOCK_BOARD_WAITING;
        admitted += (size_t)remains[p];
    }
    while (count < admitted) {
        int p = 1;
        while (p <= LOCK_BOARD_PROGRAMS && !(remains[p] && is_free(image, remains, p)))
            p++;
        if (p > LOCK_BOARD_PROGRAMS)
            fail("no order, but admitted programs", (unsigned long)admitted);
        order[count++] = (uint8_t)p;
        remains[p] = 0;
    }
    return count;
}

/* Asks for an order of which len bytes are lent; those around and after what is written are kept.
 */
static void ask_order(const uint8_t *image, size_t image_len, size_t len, uint64_t answer,
                      const uint8_t *order) {
    uint8_t before[LOCK_BOARD_IMAGE_LEN + 1], buffer[LOCK_BOARD_PROGRAMS + 3];
    const size_t written = answer <= LOCK_BOARD_PROGRAMS ? (size_t)answer : 0;
    memcpy(before, image, image_len);
    memset(buffer, FILL, sizeof buffer);
    if (lock_board_order(image, image_len, buffer + 1, len) != answer)
        fail("another answer for an order in bytes", (unsigned long)len);
    if (memcmp(before, image, image_len) != 0)
        fail("asking for the order changed the image of", (unsigned long)image_len);
    if (written > 0 && memcmp(buffer + 1, order, written) != 0)
        fail("another order, of programs", (unsigned long)answer);
    all_hold(buffer, 1, FILL, "the byte before the order was changed");
    all_hold(buffer + 1 + written, sizeof buffer - 1 - written, FILL, "after the order, at");
}

/* The order in a buffer that is just long enough, in a longer one, and in one byte too few. */
static void compare_order(const uint8_t *image) {
    uint8_t order[LOCK_BOARD_PROGRAMS];
    const size_t count = worked_order(image, order);
    ask_order(image, LOCK_BOARD_IMAGE_LEN, count, count, order);
    ask_order(image, LOCK_BOARD_IMAGE_LEN, LOCK_BOARD_PROGRAMS + 1, count, order);
    if (count > 0)
        ask_order(image, LOCK_BOARD_IMAGE_LEN, count - 1, LOCK_BOARD_BUFFER_SHORT, order);
}

static int replay(const char *in_path, const char *host_path) {
    uint8_t image[LOCK_BOARD_IMAGE_LEN], journal[LOCK_BOARD_JOURNAL_ROOM];
    uint8_t line[LOCK_BOARD_CUT_LINE];
    size_t len;
    unsigned long number = 0;
    uint64_t answer;
    uint32_t image_sum, journal_sum;
    FILE *in = open_file(in_path), *host = open_file(host_path);
    lock_board_empty(image, sizeof image);
    while (read_line(in, line, &len)) {
        number++;
        memset(journal, FILL, sizeof journal);
        if (fscanf(host, "%" SCNu64 " %" SCNu32 " %" SCNu32, &answer, &image_sum, &journal_sum) !=
            3)
            fail("no expected answer for line", number);
        if (lock_board_line(image, sizeof image, line, len, journal, sizeof journal, 0) != answer)
            fail("another answer to line", number);
        if (adler32(image, sizeof image) != image_sum)
            fail("another image after line", number);
        if (adler32(journal, sizeof journal) != journal_sum)
            fail("another journal after line", number);
        compare_order(image);
    }
    if (fscanf(host, " %*s") != EOF)
        fail("an expected answer is left after line", number);
    fclose(in);
    fclose(host);
    return 0;
}

/* A call on the empty board with one byte changed, which must be refused with 1 or 2 and write
 * nothing. */
static void refused(size_t image_len, int at, int byte, size_t journal_len, uint64_t place,
                    uint64_t answer) {
    static uint8_t image[LOCK_BOARD_IMAGE_LEN + 1], before[LOCK_BOARD_IMAGE_LEN + 1];
    static uint8_t journal[2 * LOCK_BOARD_JOURNAL_ROOM];
    const uint8_t line[] = "ENTER   1LABEL     0  0  0";
    memset(journal, FILL, sizeof journal);
    memset(image, 0, sizeof image);
    image[at] = (uint8_t)byte;
    memcpy(before, image, sizeof image);
    if (lock_board_line(image, image_len, line, sizeof line - 1, journal, journal_len, place) !=
        answer)
        fail("another answer with place", (unsigned long)place);
    if (memcmp(image, before, sizeof image) != 0)
        fail("the image changed with place", (unsigned long)place);
    all_hold(journal, sizeof journal, FILL, "a refused call wrote to the journal at");
    if (answer == LOCK_BOARD_UNSOUND) {
        ask_order(image, image_len, LOCK_BOARD_PROGRAMS, answer, NULL);
        ask_order(image, image_len, 0, answer, NULL);
    }
}

static int edges(void) {
    uint8_t image[LOCK_BOARD_IMAGE_LEN + 1];
    const uint64_t highest = LOCK_BOARD_HIGHEST_PLACE;
    const size_t len = LOCK_BOARD_IMAGE_LEN, room = LOCK_BOARD_JOURNAL_ROOM;
    const int first = LOCK_BOARD_PASSED, last = first + LOCK_BOARD_PROGRAMS - 1;
    const int row = LOCK_BOARD_INQUIRY, last_row = LOCK_BOARD_IMAGE_LEN - LOCK_BOARD_INQUIRY_LEN;
    refused(len, LOCK_BOARD_STANDING, LOCK_BOARD_HELD + 1, room, 0, LOCK_BOARD_UNSOUND);
    refused(len, LOCK_BOARD_STANDING, LOCK_BOARD_HELD, room, 0, LOCK_BOARD_UNSOUND);
    refused(len, first, 1, room, 0, LOCK_BOARD_UNSOUND); /* counts of absent ones */
    refused(len, last, 1, room, 0, LOCK_BOARD_UNSOUND);
    refused(len, row + LOCK_BOARD_INQUIRY_CLAIM, 1, room, 0, LOCK_BOARD_UNSOUND); /* so too J */
    refused(len, row + LOCK_BOARD_INQUIRY_OPEN, 1, room, 0, LOCK_BOARD_UNSOUND);
    refused(len, row + LOCK_BOARD_RECORD_IN_USE, 1, room, 0, LOCK_BOARD_UNSOUND);
    refused(len, last_row + LOCK_BOARD_AWAITED_RECORD + 1, 1, room, 0, LOCK_BOARD_UNSOUND);
    refused(LOCK_BOARD_PASSED, 0, 0, room, 0, LOCK_BOARD_UNSOUND);  /* an image without counts */
    refused(LOCK_BOARD_INQUIRY, 0, 0, room, 0, LOCK_BOARD_UNSOUND); /* one without inquiry */
    refused(len - 1, 0, 0, room, 0, LOCK_BOARD_UNSOUND);
    refused(len + 1, 0, 0, room, 0, LOCK_BOARD_UNSOUND);
    refused(0, 0, 0, 0, UINT64_MAX, LOCK_BOARD_UNSOUND);
    refused(len, 0, 0, 0, 0, LOCK_BOARD_JOURNAL_FULL);
    refused(len, 0, 0, room - 1, 0, LOCK_BOARD_JOURNAL_FULL);
    refused(len, 0, 0, 2 * room, room + 1, LOCK_BOARD_JOURNAL_FULL);
    refused(len, 0, 0, 2 * room, highest + 1, LOCK_BOARD_JOURNAL_FULL);
    refused(len, 0, 0, 2 * room, UINT64_MAX, LOCK_BOARD_JOURNAL_FULL);
    memset(image, FILL, sizeof image);
    if (lock_board_empty(image, sizeof image) != LOCK_BOARD_UNSOUND)
        fail("an empty board for length", sizeof image);
    all_hold(image, sizeof image, FILL, "a refused image was changed at");
    if (lock_board_empty(image, LOCK_BOARD_IMAGE_LEN) != 0)
        fail("no empty board for length", LOCK_BOARD_IMAGE_LEN);
    all_hold(image, LOCK_BOARD_IMAGE_LEN, 0, "the empty board's image is not 0 at");
    all_hold(image + LOCK_BOARD_IMAGE_LEN, 1, FILL, "the byte after the image was changed");
    return 0;
}

int main(int argc, char **argv) {
    if (argc == 3)
        return replay(argv[1], argv[2]);
    if (argc == 1)
        return edges();
    fprintf(stderr, "usage: entry_test [NAME.in NAME.host]\n");
    return 2;
}
