#define _POSIX_C_SOURCE 200809L
#include "session.h"

#include "image_file.h"

#include <errno.h>
#include <signal.h>
#include <stdio.h>
#include <string.h>

void session_begin(void) {
    const int ending[] = {SIGINT, SIGTERM, SIGHUP};
    struct sigaction now;
    signal(SIGPIPE, SIG_IGN);
    signal(SIGXFSZ, SIG_IGN);
    for (size_t i = 0; i < sizeof ending / sizeof ending[0]; i++)
        if (sigaction(ending[i], NULL, &now) == 0 && now.sa_handler != SIG_IGN)
            signal(ending[i], SIG_DFL);
}

void session_journal_failed(unsigned long line, int reason) {
    fprintf(stderr, "the journal cannot be written%s%s\n", reason ? ": " : "",
            reason ? strerror(reason) : "");
    if (image_file_path())
        fprintf(stderr,
                "%s: the image holds the board after line %lu, whose journal may be cut short\n",
                image_file_path(), line);
}

int session_flush(unsigned long line) {
    if (fflush(stdout) == 0 && !ferror(stdout))
        return 0;
    session_journal_failed(line, errno);
    return -1;
}
