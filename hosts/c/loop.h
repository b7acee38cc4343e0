/*
 * Loops: why a program waits though nobody has its file in conflicting use. With the
 * file given it would hold back another, that one perhaps a third, and the last of
 * them the program itself.
 */
#ifndef LOOP_H
#define LOOP_H

#include "board_view.h"

struct loop {
    uint8_t programs[LOCK_BOARD_LOOP_ROOM]; /* each holds back the next, the last the first */
    size_t count;
};

/*
 * A loop with the file given that program p waits for, p its first program: the one
 * that lock_board_loop finds in the image, which the view was read from. Count 0 if p
 * does not wait for want of an order.
 */
struct loop loop_of(const struct board_view *view, const uint8_t *image, int p);

/* The program that comes after the n-th, from 0 on, in a loop. */
int loop_next(const struct loop *loop, size_t n);

#endif
