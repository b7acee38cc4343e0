/*
 * An example host, installed as lockboard: serves request lines from standard input.
 *
 *     lockboard [--image FILE]         serve; FILE keeps the board from session to session
 *     lockboard --image FILE --show    show what stands on the board, and why somebody waits
 *     lockboard --image FILE --dot     show who holds back whom, for Graphviz
 *     lockboard --image FILE --plan    write the requests that empty the board
 *     lockboard --refusals             list the refusals and their words
 *     lockboard --version              show the version, and the kit that proved the board
 *
 * The journal goes to standard output, last the ORDER line, as the program
 * `board` writes them. Each refusal is also shown in words on standard error.
 *
 * Exit status: 0 if every line was served, refused ones too; 1 if the image,
 * reading or writing failed; 2 for wrong arguments.
 */
#include "explain.h"
#include "image_file.h"
#include "lock_board.h"
#include "plan.h"
#include "session.h"
#include "show.h"
#include "version.h"
#include "words.h"

#include <errno.h>
#include <stdio.h>
#include <string.h>

struct session {
    uint8_t image[LOCK_BOARD_IMAGE_LEN];
    uint8_t line[LOCK_BOARD_CUT_LINE]; /* the line that is being read, cut */
    size_t len;
    unsigned long number; /* lines served, the one at work among them */
    uint8_t labels[EXPLAIN_LABELS_LEN];
};

/* Shows a text of the operator's, if there is one. */
static void show_text(const char *text, size_t len) {
    if (len > 0)
        fprintf(stderr, "%.*s\n", (int)len, text);
}

/* Shows the refusal that an answer tells, one that has no journal line; answers -1. */
static int show_refusal(const struct session *s, uint64_t answer) {
    char text[EXPLAIN_TEXT_LEN];
    show_text(text, refusal_text(text, sizeof text, s->number, (int)(0 - answer)));
    return -1;
}

/*
 * Serves the line that was read. Its effect is on the disk before its journal lines are
 * written, and these at once, so that each answer is seen before the next request.
 */
static int serve_line(struct session *s) {
    uint8_t journal[LOCK_BOARD_JOURNAL_ROOM];
    char text[EXPLAIN_TEXT_LEN];
    uint64_t place;
    s->number++;
    place = lock_board_line(s->image, sizeof s->image, s->line, s->len, journal, sizeof journal, 0);
    if (place == LOCK_BOARD_UNSOUND || place == LOCK_BOARD_JOURNAL_FULL)
        return show_refusal(s, place);
    if (image_file_save(s->image, s->number) < 0)
        return -1;
    fwrite(journal, 1, place, stdout);
    if (session_flush(s->number) < 0)
        return -1;
    show_text(text, explain_answer(text, sizeof text, s->number, s->image, s->labels, s->line,
                                   s->len, journal));
    s->len = 0;
    return 0;
}

/* Serves each line as soon as its byte 10 is read; the last line may lack it. */
static int serve_input(struct session *s) {
    int byte;
    while ((byte = getchar()) != EOF) {
        if (byte == '\n') {
            if (serve_line(s) < 0)
                return -1;
        } else if (s->len < LOCK_BOARD_CUT_LINE) {
            s->line[s->len++] = (uint8_t)byte;
        }
    }
    if (ferror(stdin)) {
        fprintf(stderr, "lockboard: the requests cannot be read: %s\n", strerror(errno));
        return -1;
    }
    return s->len > 0 ? serve_line(s) : 0;
}

/* The ORDER line, which ends a session that has served all its input. */
static int write_order(const struct session *s) {
    uint8_t order[LOCK_BOARD_PROGRAMS];
    uint64_t count = lock_board_order(s->image, sizeof s->image, order, sizeof order);
    if (count > sizeof order) /* not met: the board is sound and the buffer long enough */
        return show_refusal(s, count);
    fputs("ORDER ", stdout);
    for (uint64_t i = 0; i < count; i++)
        printf("%3d", order[i]);
    putchar('\n');
    return session_flush(s->number);
}

/* The options that look at an image file and change nothing. */
static const struct {
    const char *option;
    int (*look)(const char *path);
} looks[] = {{"--show", show_board}, {"--dot", show_digraph}, {"--plan", write_plan}};

int main(int argc, char **argv) {
    struct session s = {.len = 0};
    session_begin();
    if (argc == 2 && strcmp(argv[1], "--refusals") == 0)
        return list_refusals();
    if (argc == 2 && strcmp(argv[1], "--version") == 0)
        return show_version();
    for (size_t i = 0; i < sizeof looks / sizeof looks[0]; i++)
        if (argc == 4 && strcmp(argv[1], "--image") == 0 && strcmp(argv[3], looks[i].option) == 0)
            return looks[i].look(argv[2]);
    if (argc != 1 && !(argc == 3 && strcmp(argv[1], "--image") == 0)) {
        fprintf(stderr, "usage: lockboard [--image FILE [--show | --dot | --plan] | --refusals |"
                        " --version]\n");
        return 2;
    }
    if (argc == 1)
        lock_board_empty(s.image, sizeof s.image);
    else if (image_file_open(argv[2], s.image) < 0)
        return 1;
    return serve_input(&s) < 0 || write_order(&s) < 0 ? 1 : 0;
}
