/*
 * Text about a board, put together in a buffer that the caller lends; show and
 * explain share it. Text that does not fit is cut.
 *
 * labels: LOCK_BOARD_PROGRAMS labels of LOCK_BOARD_LABEL_LEN bytes, that of program
 * 1 first. One of blanks or zeros is none. NULL: no label is known.
 */
#ifndef PHRASES_H
#define PHRASES_H

#include "board_view.h"

struct text {
    char *bytes;
    size_t room, len; /* len does not count the byte 0 after the text */
};

/* Says text in printf's form. */
void say(struct text *text, const char *format, ...);

/* Says bytes that somebody else wrote: `?` for each outside 32 to 126. */
void say_bytes(struct text *text, const uint8_t *bytes, size_t len);

/* Says the label of a program, with what comes before and after it; nothing if it is not known. */
void say_label(struct text *text, const char *before, const uint8_t *labels, int program,
               const char *after);

/* `program 2`, or `programs 2, 3 (LISTS)`: the programs of a list that ends with 0. */
void say_programs(struct text *text, const uint8_t *labels, const uint8_t *programs);

/* `file 2`, or `files 2, 3`. */
void say_files(struct text *text, uint64_t files);

/* `write files 2, 3, read file 4 and inquire into file 5`; a set without files is left out. */
void say_may(struct text *text, const struct file_sets *files);

/* What a program has open: `writes file 2 and inquires into file 5`, or `has nothing open`. */
void say_open(struct text *text, const struct program_view *program);

/* The record that a program has in use: `, has record 17 of file 2`; nothing if it has none. */
void say_record(struct text *text, const char *before, const struct program_view *program);

/* What a waiting program waits for: `file 2`, or `record 17 of file 2`. */
void say_awaited(struct text *text, const struct program_view *program);

/*
 * Why a waiting program waits: `waits for file 2, which program 3 writes`. Answers how
 * many have the record in use or the file in conflicting use; if none, it waits for want
 * of an order.
 */
int say_wait(struct text *text, const uint8_t *labels, const struct board_view *view, int program);

#endif
