/* Refusals that help: what was asked and what stands, for the hosts in C, COBOL and Rust. */
#ifndef EXPLAIN_H
#define EXPLAIN_H

#include "lock_board.h"

#define EXPLAIN_LABELS_LEN (LOCK_BOARD_PROGRAMS * LOCK_BOARD_LABEL_LEN)
#define EXPLAIN_TEXT_LEN   1024 /* every text fits */

/*
 * To be called after each line that was served, with its number in the session,
 * the image after it, the line and its journal.
 *
 * If the journal has a refusal, writes what the operator is to see into the
 * text, one line without its byte 10: `line N: refusal R: WORDS (program P, file F,
 * record R)`, without those that the journal line has not, and then what helps.
 * Answers its length. Bytes of the request outside 32 to 126 are shown as `?`. If
 * the line was not refused, the answer is 0.
 *
 * Keeps the labels, EXPLAIN_LABELS_LEN bytes, which begin as zeros: that of a
 * program whose ENTER was served, until it has left or was cancelled.
 */
size_t explain_answer(char *text, size_t text_len, unsigned long number, const uint8_t *image,
                      uint8_t *labels, const uint8_t *line, size_t line_len,
                      const uint8_t *journal);

#endif
