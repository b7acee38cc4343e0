#include "loop.h"

/* Fills the loop with the programs of a list, from that at the place on. */
static void turn(struct loop *loop, const uint8_t *list, size_t count, size_t place) {
    loop->count = count;
    for (size_t n = 0; n < count; n++)
        loop->programs[n] = list[(place + n) % count];
}

struct loop loop_of(const struct board_view *view, const uint8_t *image, int p) {
    struct loop loop = {{0}, 0};
    uint8_t list[LOCK_BOARD_LOOP_ROOM];
    uint64_t count;
    if (!waits_for_order(view, p))
        return loop;
    count = lock_board_loop(image, LOCK_BOARD_IMAGE_LEN, (uint64_t)p, list, sizeof list);
    if (count > sizeof list) /* not met: the board is sound and the buffer long enough */
        return loop;
    /* p is in it: without the file given there is an order. */
    for (size_t place = 0; place < count; place++)
        if (list[place] == p)
            turn(&loop, list, (size_t)count, place);
    return loop;
}

int loop_next(const struct loop *loop, size_t n) { return loop->programs[(n + 1) % loop->count]; }
