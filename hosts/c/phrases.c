#include "phrases.h"

#include <stdarg.h>
#include <stdio.h>
#include <string.h>

void say(struct text *text, const char *format, ...) {
    const size_t left = text->room - text->len;
    va_list values;
    int len;
    va_start(values, format);
    len = vsnprintf(text->bytes + text->len, left, format, values);
    va_end(values);
    if (len > 0 && left > 0)
        text->len += (size_t)len < left ? (size_t)len : left - 1;
}

void say_bytes(struct text *text, const uint8_t *bytes, size_t len) {
    for (size_t i = 0; i < len; i++)
        say(text, "%c", bytes[i] >= 32 && bytes[i] <= 126 ? bytes[i] : '?');
}

void say_label(struct text *text, const char *before, const uint8_t *labels, int program,
               const char *after) {
    const uint8_t *label = labels ? labels + (program - 1) * LOCK_BOARD_LABEL_LEN : NULL;
    size_t len = labels ? LOCK_BOARD_LABEL_LEN : 0;
    while (len > 0 && (label[len - 1] == ' ' || label[len - 1] == 0))
        len--;
    if (len == 0)
        return;
    say(text, "%s", before);
    say_bytes(text, label, len);
    say(text, "%s", after);
}

void say_programs(struct text *text, const uint8_t *labels, const uint8_t *programs) {
    const char *before = programs[0] && programs[1] ? "programs " : "program ";
    for (; *programs; programs++) {
        say(text, "%s%d", before, *programs);
        say_label(text, " (", labels, *programs, ")");
        before = ", ";
    }
}

void say_files(struct text *text, uint64_t files) {
    const char *before = files & (files - 1) ? "files " : "file ";
    for (int f = 1; f <= LOCK_BOARD_FILES; f++) {
        if (files & file_set(f)) {
            say(text, "%s%d", before, f);
            before = ", ";
        }
    }
}

/* The verbs of the three ways of use: of one program that does so, and else. */
struct verbs {
    const char *write, *read, *inquire;
};
static const struct verbs of_one = {"writes", "reads", "inquires into"};
static const struct verbs plain = {"write", "read", "inquire into"};

/* `WRITE files 2, 3, READ file 4 and INQUIRE file 5`, with these verbs. */
static void say_uses(struct text *text, const struct verbs *verbs, const struct file_sets *files) {
    const char *const verb[] = {verbs->write, verbs->read, verbs->inquire};
    const uint64_t set[] = {files->write, files->read, files->inquiry};
    int left = (set[0] != 0) + (set[1] != 0) + (set[2] != 0);
    const char *before = "";
    for (int i = 0; i < 3; i++) {
        if (!set[i])
            continue;
        say(text, "%s%s ", before, verb[i]);
        say_files(text, set[i]);
        left--;
        before = left == 1 ? " and " : ", ";
    }
}

void say_may(struct text *text, const struct file_sets *files) { say_uses(text, &plain, files); }

void say_open(struct text *text, const struct program_view *program) {
    if (!files_of_all(&program->open))
        say(text, "has nothing open");
    say_uses(text, &of_one, &program->open);
}

void say_record(struct text *text, const char *before, const struct program_view *program) {
    if (program->record_in_use)
        say(text, "%shas record %d of file %d", before, program->record_in_use, program->file);
}

void say_awaited(struct text *text, const struct program_view *program) {
    if (waits_for_record(program))
        say(text, "record %d of ", program->awaited_record);
    say(text, "file %d", program->file);
}

/* The programs that have the awaited file in conflicting use, a 0 after them; answers how many. */
static int conflicting_users(const struct board_view *view, int program, uint8_t *users) {
    int count = 0;
    for (int i = 1; i <= LOCK_BOARD_PROGRAMS; i++)
        if (has_in_conflicting_use(view, i, program))
            users[count++] = (uint8_t)i;
    users[count] = 0;
    return count;
}

/* ` writes`: how users of a file, all in the same way, use it. */
static void say_use(struct text *text, const struct file_sets *open, int file, int users) {
    const struct verbs *verbs = users == 1 ? &of_one : &plain;
    const char *verb = verbs->write;
    if (open->read & file_set(file))
        verb = verbs->read;
    if (open->inquiry & file_set(file))
        verb = verbs->inquire;
    say(text, " %s", verb);
}

int say_wait(struct text *text, const uint8_t *labels, const struct board_view *view, int program) {
    const struct program_view *waiter = &view->programs[program];
    uint8_t users[LOCK_BOARD_PROGRAMS + 1] = {0};
    int count = 1;
    if (waits_for_record(waiter))
        users[0] = (uint8_t)user_of_awaited_record(view, program);
    else
        count = conflicting_users(view, program, users);
    say(text, "waits for ");
    say_awaited(text, waiter);
    say(text, ", which ");
    say_programs(text, labels, users);
    if (count == 0)
        say(text,
            "nobody has in conflicting use, but with it given no completion order would be left");
    else if (waits_for_record(waiter))
        say(text, " has in use");
    else
        say_use(text, &view->programs[users[0]].open, waiter->file, count);
    return count;
}
