/* The refusals in words, as docs/REFUSALS.md has them; all three hosts show these. */
#ifndef WORDS_H
#define WORDS_H

#include <stddef.h>

/* The words of a refusal; NULL for a number that is none. */
const char *refusal_words(int refusal);

/*
 * What the operator sees of a refused line: writes `line N: refusal R: WORDS` into the
 * text, cut to text_len bytes, without a byte 0 or 10 at its end, and answers its length.
 */
size_t refusal_text(char *text, size_t text_len, unsigned long line, int refusal);

/* Lists the refusals on standard output; answers 0, or 1 if that fails. */
int list_refusals(void);

#endif
