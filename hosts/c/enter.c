/*
 * Writes the ENTER line of a program, for whoever makes claim lists; installed as lockboard-enter.
 *
 *     lockboard-enter PROGRAM LABEL [--write FILES] [--read FILES] [--inquire FILES]
 *     lockboard-enter --version
 *
 * FILES are numbers with commas between, and 5-7 for 5 to 7: --write 1,3,5-7. An option may be left
 * out, and given again for more files. What follows -- is no option.
 *
 * The line goes to standard output, ready for a session. What is wrong is told on standard error.
 * A file in two lists is written in both, and told, since the board will refuse the line.
 *
 * Exit status: 0 if the line was written; 1 if there is no such line, or writing failed; 2 for
 * wrong arguments.
 */
#include "lock_board.h"
#include "phrases.h"
#include "session.h"
#include "version.h"
#include "words.h"

#include <errno.h>
#include <stdio.h>
#include <string.h>

struct enter {
    const char *program, *label; /* as they were given; NULL: not yet */
    struct file_sets files;
};

/* ---- what is wrong, in words */

static void say_argument(struct text *text, const char *argument, size_t len) {
    say_bytes(text, (const uint8_t *)argument, len < 80 ? len : 80);
}

/* Begins the words on an argument: `WHAT "ARGUMENT": ` */
static struct text about(const char *what, const char *argument) {
    static char bytes[1024];
    struct text text = {bytes, sizeof bytes, 0};
    say(&text, "%s \"", what);
    say_argument(&text, argument, strlen(argument));
    say(&text, "\": ");
    return text;
}

static void say_refusal(struct text *text, int refusal) {
    say(text, "refusal %d: %s", refusal, refusal_words(refusal));
}

/* Tells what was said; answers -1. */
static int tell(const struct text *text) {
    fprintf(stderr, "lockboard-enter: %.*s\n", (int)text->len, text->bytes);
    return -1;
}

/* ---- lists of files */

/* Reads the number that a text begins with; answers what follows it, NULL if there is no number.
 * A number that is too large for 64 bits becomes the largest one. */
static const char *take_number(const char *text, uint64_t *number) {
    const char *at = text;
    for (*number = 0; *at >= '0' && *at <= '9'; at++) {
        const uint64_t digit = (uint64_t)(*at - '0');
        *number = *number > (UINT64_MAX - digit) / 10 ? UINT64_MAX : 10 * *number + digit;
    }
    return at == text ? NULL : at;
}

/* Reads `5` or `5-7`; answers what follows it, NULL if it is not in form. */
static const char *take_range(const char *text, uint64_t *first, uint64_t *last) {
    text = take_number(text, first);
    *last = *first;
    return text && *text == '-' ? take_number(text + 1, last) : text;
}

static int tell_form(struct text *text, const char *option, const char *list) {
    say(text,
        "this is no list of files; write numbers with commas between, 5-7 for 5 to 7, and no");
    say(text, " blanks, as in %s 1,3,5-7", option);
    if (!*list)
        say(text, "; without files, leave %s out", option);
    return tell(text);
}

static int is_file(uint64_t number) { return number >= 1 && number <= LOCK_BOARD_FILES; }

/* Adds the files of a list; answers 0, or -1 after telling what is wrong. */
static int add_files(uint64_t *files, const char *option, const char *list) {
    struct text text = about(option, list);
    for (const char *part = list, *end;; part = end + 1) {
        uint64_t first, last;
        end = take_range(part, &first, &last);
        if (!end || (*end && *end != ','))
            return tell_form(&text, option, list);
        if (!is_file(first) || !is_file(last)) {
            say_refusal(&text, LOCK_BOARD_REFUSAL_OUT_OF_RANGE);
            say(&text, ": ");
            say_argument(&text, part, (size_t)(end - part));
            say(&text, "; files are 1 to %d", LOCK_BOARD_FILES);
            return tell(&text);
        }
        if (last < first) {
            say_argument(&text, part, (size_t)(end - part));
            say(&text, " falls; write the lower file first");
            return tell(&text);
        }
        for (; first <= last; first++)
            *files |= file_set((int)first);
        if (!*end)
            return 0;
    }
}

/* ---- the line */

static int tell_program(const struct enter *enter, int refusal) {
    struct text text = about("program", enter->program);
    if (refusal)
        say_refusal(&text, refusal);
    else
        say(&text, "this is no number");
    say(&text, "; programs are 1 to %d", LOCK_BOARD_PROGRAMS);
    return tell(&text);
}

static int tell_label(const struct enter *enter) {
    struct text text = about("label", enter->label);
    const size_t len = strlen(enter->label);
    size_t i = 0;
    if (len > LOCK_BOARD_LABEL_LEN) {
        say(&text, "it has %lu bytes; a label has at most %d", (unsigned long)len,
            LOCK_BOARD_LABEL_LEN);
        return tell(&text);
    }
    while (i < len && enter->label[i] >= 32 && enter->label[i] <= 126)
        i++;
    say_refusal(&text, LOCK_BOARD_REFUSAL_BAD_LABEL);
    say(&text, ": byte %d of it is %d; use plain letters, digits, signs and blanks", (int)i + 1,
        (uint8_t)enter->label[i]);
    return tell(&text);
}

/* Tells of the files in more than one list, if there are any. */
static void tell_twice(const struct file_sets *files) {
    char bytes[1024];
    struct text text = {bytes, sizeof bytes, 0};
    const uint64_t twice =
        (files->write & (files->read | files->inquiry)) | (files->read & files->inquiry);
    if (!twice)
        return;
    say(&text, "in more than one list: ");
    say_files(&text, twice);
    say(&text, "; the line is written, but the board will refuse it: ");
    say_refusal(&text, LOCK_BOARD_REFUSAL_CLAIMS_MEET);
    say(&text, "; list each file once, with --write if the program ever writes the whole file,"
               " with --inquire if it looks up or corrects single records, else with --read");
    tell(&text);
}

/* The claims as lock_board_write takes them: three sets of bytes, lowest first. */
static void put_claims(uint8_t *claims, const struct file_sets *files) {
    const uint64_t sets[] = {files->write, files->read, files->inquiry};
    for (int i = 0; i < LOCK_BOARD_CLAIMS_LEN; i++)
        claims[i] = (uint8_t)(sets[i / LOCK_BOARD_SET_LEN] >> 8 * (i % LOCK_BOARD_SET_LEN));
}

/* Lets the library write the line into the buffer; answers its length, or -1 after telling. */
static int make_line(const struct enter *enter, uint8_t *line, size_t line_len) {
    uint8_t filled[LOCK_BOARD_LABEL_LEN], claims[LOCK_BOARD_CLAIMS_LEN];
    const uint8_t *label = (const uint8_t *)enter->label;
    size_t label_len = strlen(enter->label);
    uint64_t program, answer;
    const char *rest = take_number(enter->program, &program);
    if (!rest || *rest)
        return tell_program(enter, 0);
    if (label_len < sizeof filled) {
        memset(filled, ' ', sizeof filled);
        memcpy(filled, label, label_len);
        label = filled;
        label_len = sizeof filled;
    }
    put_claims(claims, &enter->files);
    answer = lock_board_write(LOCK_BOARD_ENTER, program, 0, 0, claims, sizeof claims, label,
                              label_len, line, line_len);
    if (answer == LOCK_BOARD_BAD_LABEL)
        return tell_label(enter);
    if (answer > line_len) /* the program; the buffer is long enough */
        return tell_program(enter, (int)LOCK_BOARD_REFUSED(answer));
    return (int)answer;
}

static int write_line(const struct enter *enter) {
    uint8_t line[LOCK_BOARD_LONGEST_LINE];
    const int len = make_line(enter, line, sizeof line);
    if (len < 0)
        return 1;
    fwrite(line, 1, (size_t)len, stdout);
    putchar('\n');
    if (fflush(stdout) != 0 || ferror(stdout)) {
        fprintf(stderr, "lockboard-enter: the line cannot be written: %s\n", strerror(errno));
        return 1;
    }
    tell_twice(&enter->files);
    return 0;
}

/* ---- arguments */

/* The set that an option is for; NULL if it is none. */
static uint64_t *set_of(struct enter *enter, const char *option) {
    if (strcmp(option, "--write") == 0)
        return &enter->files.write;
    if (strcmp(option, "--read") == 0)
        return &enter->files.read;
    return strcmp(option, "--inquire") == 0 ? &enter->files.inquiry : NULL;
}

/* Answers an exit status: 0 to go on, 1 after telling what is wrong, 2 for wrong usage. */
static int read_arguments(struct enter *enter, char **arguments) {
    int options = 1;
    for (; *arguments; arguments++) {
        if (options && strcmp(*arguments, "--") == 0) {
            options = 0;
        } else if (options && strncmp(*arguments, "--", 2) == 0) {
            uint64_t *files = set_of(enter, *arguments);
            if (!files || !arguments[1])
                return 2;
            if (add_files(files, arguments[0], arguments[1]) < 0)
                return 1;
            arguments++;
        } else if (!enter->program) {
            enter->program = *arguments;
        } else if (!enter->label) {
            enter->label = *arguments;
        } else {
            return 2;
        }
    }
    return enter->label ? 0 : 2;
}

int main(int argc, char **argv) {
    struct enter enter = {NULL, NULL, {0, 0, 0}};
    int status;
    session_begin();
    if (argc == 2 && strcmp(argv[1], "--version") == 0)
        return show_version();
    status = read_arguments(&enter, argv + (argc > 0));
    if (status == 2)
        fprintf(stderr,
                "usage: lockboard-enter PROGRAM LABEL [--write FILES] [--read FILES]"
                " [--inquire FILES] | --version\n"
                "for instance: lockboard-enter 2 ORDERS --write 2 --read 1,3,5-7 --inquire 8\n");
    return status ? status : write_line(&enter);
}
