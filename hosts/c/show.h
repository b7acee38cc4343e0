/* What stands on the board of an image file, and why somebody waits. */
#ifndef SHOW_H
#define SHOW_H

/*
 * Each reads the file, without locking or changing it, and writes to standard
 * output. Answers 0, or 1 after a message on standard error: there is no such
 * file, it holds no sound board (refusal 1), or the output fails. A reader that
 * goes away, as in `serve --image FILE --show | head -n 3`, is not told.
 */

/* For a person, in at most 80 columns. */
int show_board(const char *path);

/*
 * Who holds back whom among the admitted programs, and in which files, for Graphviz. Red is a
 * loop of somebody who waits for want of an order, dashed its step that only the awaited file
 * makes; dotted leads from a record's user to who waits for the record.
 */
int show_digraph(const char *path);

/* Ends what such a function has written; the text says what has failed, if anything has. */
int shown(const char *if_not);

#endif
