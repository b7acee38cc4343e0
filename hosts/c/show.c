#include "show.h"

#include "image_file.h"
#include "loop.h"
#include "phrases.h"

#include <errno.h>
#include <stdio.h>
#include <string.h>

#define WIDTH 80 /* columns of a line */
#define HANG  6  /* blanks before the second line of a paragraph and those after it */
/* Bytes of the longest paragraph: 31 programs, each with up to 64 files, and a loop of 32. */
#define PARAGRAPH_LEN 12000

static const char not_shown[] = "the board cannot be shown";

/* Writes a paragraph, broken at blanks. */
static void write_paragraph(const char *text) {
    size_t column = 0;
    while (*text) {
        size_t len = strspn(text, " ");
        len += strcspn(text + len, " ");
        if (column > 0 && column + len > WIDTH) {
            printf("\n%*s", HANG - 1, "");
            column = HANG - 1;
        }
        printf("%.*s", (int)len, text);
        column += len;
        text += len;
    }
    putchar('\n');
}

/* The files that a program claims and has not open. */
static struct file_sets not_open(const struct program_view *program) {
    struct file_sets left = program->claims;
    left.write &= ~program->open.write;
    left.read &= ~program->open.read;
    left.inquiry &= ~program->open.inquiry;
    return left;
}

/* `program 1 runs: inquires into file 1; has record 17 of file 1; may still write files 2, 3` */
static void show_admitted(const struct board_view *view) {
    int any = 0;
    for (int p = 1; p <= LOCK_BOARD_PROGRAMS; p++) {
        const struct program_view *program = &view->programs[p];
        const struct file_sets left = not_open(program);
        const char *standing = program->standing == LOCK_BOARD_RUNNING ? "runs" : "waits";
        char bytes[PARAGRAPH_LEN];
        struct text text = {bytes, sizeof bytes, 0};
        if (!is_admitted(program))
            continue;
        if (!any)
            puts("Admitted:");
        any = 1;
        say(&text, "  program %d %s: ", p, standing);
        say_open(&text, program);
        say_record(&text, "; ", program);
        say(&text, files_of_all(&left) ? "; may still " : "; may open nothing more");
        say_may(&text, &left);
        write_paragraph(bytes);
    }
    if (!any)
        puts("Admitted: nobody");
}

/* `; held back by program 1 (file 1), program 3 (files 2, 4)` */
static void say_holders(struct text *text, const struct board_view *view, int p) {
    const char *before = "; held back by";
    for (int i = 1; i <= LOCK_BOARD_PROGRAMS; i++) {
        const uint64_t files = holds_back_in(&view->programs[i], &view->programs[p]);
        if (i == p || !files)
            continue;
        say(text, "%s program %d (", before, i);
        say_files(text, files);
        say(text, ")");
        before = ",";
    }
}

/* `; with file 4 given: 2 holds back 1 over file 4, 1 holds back 2 over file 3` */
static void say_loop(struct text *text, const struct board_view *view, const struct loop *loop) {
    const int p = loop->programs[0];
    const char *before = "";
    struct board_view given = *view;
    given.programs[p] = with_file_given(&view->programs[p]);
    say(text, "; with file %d given: ", view->programs[p].file);
    for (size_t n = 0; n < loop->count; n++) {
        const int i = loop->programs[n], j = loop_next(loop, n);
        const uint64_t files = holds_back_in(&given.programs[i], &given.programs[j]);
        say(text, "%s%d holds back %d over file %d", before, i, j, lowest_file(files));
        before = ", ";
    }
}

/* `program 2 waits for file 1, which program 3 reads; passed by 2 of at most 8 programs` */
static void show_waiting(const struct board_view *view, const uint8_t *image) {
    puts(view->waiting_line[0] ? "Waiting, oldest first:" : "Waiting: nobody");
    for (const uint8_t *p = view->waiting_line; *p; p++) {
        const struct loop loop = loop_of(view, image, *p);
        char bytes[PARAGRAPH_LEN];
        struct text text = {bytes, sizeof bytes, 0};
        say(&text, "  program %d ", *p);
        say_wait(&text, NULL, view, *p);
        if (loop.count > 0) {
            say_loop(&text, view, &loop);
            say_holders(&text, view, *p);
        }
        say(&text, "; passed by %d of at most %d programs", view->programs[*p].passed,
            LOCK_BOARD_MOST_PASSED);
        write_paragraph(bytes);
    }
}

/* `Favoured: program 2 (gets file 1 after at most 3 leaves or waiters' cancels)` */
static void show_favoured(const struct board_view *view) {
    const int leaves = leaves_to_come(view);
    char bytes[PARAGRAPH_LEN];
    struct text text = {bytes, sizeof bytes, 0};
    say(&text, "Favoured: ");
    if (view->favoured) {
        say(&text, "program %d (gets ", view->favoured);
        say_awaited(&text, &view->programs[view->favoured]);
        say(&text, " after at most %d %s)", leaves,
            leaves == 1 ? "leave or waiter's cancel" : "leaves or waiters' cancels");
    } else {
        say(&text, "nobody");
    }
    write_paragraph(bytes);
}

/* `NAME: programs 1, 2`: the programs of a list that ends with 0. */
static void show_list(const char *name, const uint8_t *programs) {
    char bytes[PARAGRAPH_LEN];
    struct text text = {bytes, sizeof bytes, 0};
    say(&text, "%s: ", name);
    if (programs[0])
        say_programs(&text, NULL, programs);
    else
        say(&text, "nobody");
    write_paragraph(bytes);
}

int shown(const char *if_not) {
    if (fflush(stdout) == 0 && !ferror(stdout))
        return 0;
    if (errno != EPIPE) /* a reader that has seen enough */
        fprintf(stderr, "%s: %s\n", if_not, strerror(errno));
    return 1;
}

int show_board(const char *path) {
    uint8_t image[LOCK_BOARD_IMAGE_LEN], order[LOCK_BOARD_PROGRAMS + 1] = {0};
    struct board_view view;
    if (image_file_read(path, image) < 0)
        return 1;
    board_view_read(&view, image);
    lock_board_order(image, sizeof image, order, LOCK_BOARD_PROGRAMS);
    show_admitted(&view);
    show_waiting(&view, image);
    show_favoured(&view);
    show_list("Held at entry, oldest first", view.entry_line);
    show_list("Completion order", order);
    return shown(not_shown);
}

/* steps[i][j]: in a loop of somebody who waits for want of an order i comes before j. */
typedef uint8_t loop_steps[LOCK_BOARD_PROGRAMS + 1][LOCK_BOARD_PROGRAMS + 1];

static void take_steps(loop_steps steps, const struct board_view *view, const uint8_t *image) {
    for (int p = 1; p <= LOCK_BOARD_PROGRAMS; p++) {
        const struct loop loop = loop_of(view, image, p);
        for (size_t n = 0; n < loop.count; n++)
            steps[loop.programs[n]][loop_next(&loop, n)] = 1;
    }
}

/*
 * An edge: `1 -> 2 [label="file 1"];`, in a loop `1 -> 2 [label="file 1", color=red];`. The
 * one that is there only with the awaited file given is the first of its loop:
 * `2 -> 1 [label="file 4 if given", color=red, style=dashed];`
 */
static void show_edge(const struct board_view *view, int i, int j, int in_loop) {
    const uint64_t files = holds_back_in(&view->programs[i], &view->programs[j]);
    char bytes[PARAGRAPH_LEN];
    struct text text = {bytes, sizeof bytes, 0};
    if (!files && !in_loop)
        return;
    say_files(&text, files ? files : file_set(view->programs[i].file));
    printf("    %d -> %d [label=\"%s%s\"%s%s];\n", i, j, bytes, files ? "" : " if given",
           in_loop ? ", color=red" : "", files ? "" : ", style=dashed");
}

static void show_edges(const struct board_view *view, const uint8_t *image) {
    loop_steps steps = {{0}};
    take_steps(steps, view, image);
    for (int i = 1; i <= LOCK_BOARD_PROGRAMS; i++)
        for (int j = 1; j <= LOCK_BOARD_PROGRAMS; j++)
            if (i != j && is_admitted(&view->programs[j]))
                show_edge(view, i, j, steps[i][j]);
}

/* From a record's user to each who waits for it: `3 -> 2 [label="record 17 of file 2", ..];` */
static void show_record_waits(const struct board_view *view) {
    for (int p = 1; p <= LOCK_BOARD_PROGRAMS; p++) {
        char bytes[PARAGRAPH_LEN];
        struct text text = {bytes, sizeof bytes, 0};
        if (!waits_for_record(&view->programs[p]))
            continue;
        say_awaited(&text, &view->programs[p]);
        printf("    %d -> %d [label=\"%s\", style=dotted];\n", user_of_awaited_record(view, p), p,
               bytes);
    }
}

/* The programs: `1 [label="program 1\nruns"];` */
static void show_nodes(const struct board_view *view) {
    for (int p = 1; p <= LOCK_BOARD_PROGRAMS; p++) {
        const struct program_view *program = &view->programs[p];
        char bytes[PARAGRAPH_LEN];
        struct text text = {bytes, sizeof bytes, 0};
        if (!is_admitted(program))
            continue;
        if (program->standing == LOCK_BOARD_WAITING) {
            say(&text, "waits for ");
            say_awaited(&text, program);
        } else {
            say(&text, "runs");
            say_record(&text, ", ", program);
        }
        printf("    %d [label=\"program %d\\n%s\"];\n", p, p, bytes);
    }
}

int show_digraph(const char *path) {
    uint8_t image[LOCK_BOARD_IMAGE_LEN];
    struct board_view view;
    if (image_file_read(path, image) < 0)
        return 1;
    board_view_read(&view, image);
    puts("digraph lock_board {");
    show_nodes(&view);
    show_edges(&view, image);
    show_record_waits(&view);
    puts("}");
    return shown(not_shown);
}
