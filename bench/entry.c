/*
 * Serves the lines of standard input through the C entry, with the image in
 * memory, and writes the journal: what a host's call costs, without the host.
 */
#include <stdint.h>
#include <stdio.h>

#include "lock_board.h"

static uint8_t image[LOCK_BOARD_IMAGE_LEN];
static uint8_t journal[65536];
static uint8_t line[LOCK_BOARD_CUT_LINE];

static int write_journal(uint64_t place) { return fwrite(journal, 1, place, stdout) == place; }

int main(void) {
    uint64_t place = 0;
    size_t len = 0;
    int c;

    lock_board_empty(image, sizeof image);
    while ((c = getchar_unlocked()) != EOF) {
        if (c != '\n') {
            if (len < LOCK_BOARD_CUT_LINE)
                line[len++] = (uint8_t)c;
            continue;
        }
        if (place + LOCK_BOARD_JOURNAL_ROOM > sizeof journal) {
            if (!write_journal(place))
                return 1;
            place = 0;
        }
        place = lock_board_line(image, sizeof image, line, len, journal, sizeof journal, place);
        if (place > sizeof journal)
            return 1;
        len = 0;
    }
    return !write_journal(place);
}
