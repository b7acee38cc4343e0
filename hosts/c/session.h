/* What a session needs beside the board, for the hosts in C, COBOL and Rust. */
#ifndef SESSION_H
#define SESSION_H

/*
 * To be called first. A closed pipe or a limit on the size of files then makes
 * a write fail, and the session can say so, where it would have ended it. An
 * interrupt ends the session at once: no handler of a language's own runs.
 */
void session_begin(void);

/*
 * Says that the journal of a line could not be written, with the system's reason
 * (a value of errno, 0 for none), and what the image file, if there is one, holds.
 */
void session_journal_failed(unsigned long line, int reason);

/* Flushes standard output after a line's journal; answers 0, or -1 after the message above. */
int session_flush(unsigned long line);

#endif
