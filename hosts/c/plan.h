/* A plan for the end of the day: the carried order run through, as request lines. */
#ifndef PLAN_H
#define PLAN_H

/*
 * Reads an image file, without locking or changing it, and writes the requests
 * that empty its board to standard output. First all records in use are returned:
 * by the lowest-numbered program that has one, then by whoever gets that record by
 * this, and so on, then by the lowest-numbered that has another. Then the carried
 * order's first program opens each claimed file that it hasn't open, rising, and
 * leaves; then the new order's first, and so on, one round for each program, those
 * held at entry included. Served on that board, each OPEN is answered GIVEN, each
 * RETURN and LEAVE DONE. Nothing is written of an empty board. Answers as the
 * functions of show.h.
 */
int write_plan(const char *path);

#endif
