/* The version of the lock board, as all three hosts show it. */
#ifndef VERSION_H
#define VERSION_H

/* Shows version and kit on standard output; answers 0, or 1 if that fails. */
int show_version(void);

#endif
