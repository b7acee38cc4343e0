#include "explain.h"

#include "phrases.h"
#include "words.h"

#include <stdio.h>
#include <string.h>

/* Columns of a request line, counted from 0: where its parts begin, and how many they have. */
enum { PROGRAM_AT = 6, FILE_AT = 9, RECORD_AT = 12, LABEL_AT = 9, COUNTS_AT = 17, FILES_AT = 26 };
enum { VERB_LEN = 6, NUMBER_LEN = 3, RECORD_LEN = 5 };

enum { CLAIMS = 3 }; /* of an ENTER: to write, to read and to inquire into */

/* A refused line. */
struct refused {
    const uint8_t *line;
    size_t len;
    int program, file, record; /* as its journal line has them */
    const struct board_view *view;
    const uint8_t *labels;
};

/* A number in form in so many columns, 5 at most; -1 if it is not in form. */
static int number_in(const uint8_t *columns, int width) {
    char form[12];
    int number = 0;
    for (int i = 0; i < width; i++) {
        if (columns[i] >= '0' && columns[i] <= '9')
            number = 10 * number + (columns[i] - '0');
        else if (columns[i] != ' ')
            return -1;
    }
    snprintf(form, sizeof form, "%*d", width, number);
    return memcmp(form, columns, (size_t)width) == 0 ? number : -1;
}

static int number_at(const uint8_t *columns) { return number_in(columns, NUMBER_LEN); }

/* Whether a line, not refused with 3, is of this verb. */
static int is_verb(const uint8_t *line, const char *verb) {
    return memcmp(line, verb, strlen(verb)) == 0;
}

/* LEAVE and CANCEL: the program goes. */
static int removes_program(const uint8_t *line) {
    return is_verb(line, "LEAVE") || is_verb(line, "CANCEL");
}

/* How many files each claim of an ENTER has. */
struct counts {
    size_t of[CLAIMS];
};

static struct counts counts_of(const uint8_t *line) {
    struct counts counts;
    for (int i = 0; i < CLAIMS; i++)
        counts.of[i] = (size_t)number_at(line + COUNTS_AT + NUMBER_LEN * i);
    return counts;
}

/* Where the n-th file of an ENTER stands, from 0 on. */
static size_t claimed_at(size_t n) { return FILES_AT + NUMBER_LEN * n; }

/* ---- refusals 3 to 7: what is wrong in the line */

static void explain_verb(struct text *text, const struct refused *r) {
    if (r->len == 0) {
        say(text, "the line is empty");
        return;
    }
    say(text, r->len < VERB_LEN ? "the line has only \"" : "columns 1-6 have \"");
    say_bytes(text, r->line, r->len < VERB_LEN ? r->len : VERB_LEN);
    say(text, "\", not ENTER, OPEN, CLOSE, DROP, LEAVE, CANCEL, FETCH or RETURN, with blanks up to"
              " column 6");
}

/* The last column of a line that is no ENTER. */
static int end_of(const uint8_t *line) {
    if (is_verb(line, "FETCH"))
        return RECORD_AT + RECORD_LEN;
    return removes_program(line) || is_verb(line, "RETURN") ? FILE_AT : FILE_AT + NUMBER_LEN;
}

static void explain_length(struct text *text, const struct refused *r) {
    size_t verb_len = VERB_LEN;
    while (r->line[verb_len - 1] == ' ')
        verb_len--;
    if (r->len > LOCK_BOARD_LONGEST_LINE)
        say(text, "the line goes beyond column %d", LOCK_BOARD_LONGEST_LINE);
    else
        say(text, "the line ends with column %d%s", (int)r->len,
            r->line[r->len - 1] == '\r' ? ", a carriage return" : "");
    say(text, "; ");
    say_bytes(text, r->line, verb_len);
    if (!is_verb(r->line, "ENTER"))
        say(text, " ends with column %d", end_of(r->line));
    else if (r->len < FILES_AT)
        say(text, " goes up to column %d at least", FILES_AT);
    else {
        const struct counts n = counts_of(r->line);
        say(text, " with %d files to write, %d to read and %d to inquire into ends with column %d",
            (int)n.of[0], (int)n.of[1], (int)n.of[2], (int)claimed_at(n.of[0] + n.of[1] + n.of[2]));
    }
}

struct field {
    size_t at;
    int width;
    const char *what;
    int lowest, highest;
};

/* Numbers that a line has at most: an ENTER's program, counts and files. */
enum { MOST_NUMBERS = 1 + CLAIMS + CLAIMS * LOCK_BOARD_FILES };

/* The n-th number of a line, from 0 on. */
static struct field field_of(const struct refused *r, size_t n) {
    const struct field program = {PROGRAM_AT, NUMBER_LEN, "program", 1, LOCK_BOARD_PROGRAMS};
    const struct field record = {RECORD_AT, RECORD_LEN, "record", 1, LOCK_BOARD_RECORDS};
    struct field count = {COUNTS_AT, NUMBER_LEN, "count", 0, LOCK_BOARD_FILES};
    struct field file = {FILE_AT, NUMBER_LEN, "file", 1, LOCK_BOARD_FILES};
    if (n == 0)
        return program;
    if (!is_verb(r->line, "ENTER"))
        return n == 1 ? file : record;
    count.at += NUMBER_LEN * (n - 1);
    if (n > CLAIMS)
        file.at = claimed_at(n - 1 - CLAIMS);
    return n > CLAIMS ? file : count;
}

/* The first number that is not in form or range. */
static void explain_number(struct text *text, const struct refused *r) {
    for (size_t n = 0; n < MOST_NUMBERS; n++) {
        const struct field field = field_of(r, n);
        const size_t end = field.at + (size_t)field.width;
        int number;
        if (end > r->len)
            return;
        number = number_in(r->line + field.at, field.width);
        if (number >= field.lowest && number <= field.highest)
            continue;
        say(text, "columns %d-%d have \"", (int)field.at + 1, (int)end);
        say_bytes(text, r->line + field.at, (size_t)field.width);
        say(text, "\", not a %s from %d to %d, right-justified", field.what, field.lowest,
            field.highest);
        return;
    }
}

static void explain_label(struct text *text, const struct refused *r) {
    for (size_t i = LABEL_AT; i < LABEL_AT + LOCK_BOARD_LABEL_LEN && i < r->len; i++) {
        if (r->line[i] < 32 || r->line[i] > 126) {
            say(text, "column %d has byte %d", (int)i + 1, r->line[i]);
            return;
        }
    }
}

/* The first file that is not above the one before it in its claim. */
static void explain_rising(struct text *text, const struct refused *r) {
    const struct counts counts = counts_of(r->line);
    const size_t read = counts.of[0], inquiry = read + counts.of[1]; /* where these claims begin */
    for (size_t n = 1; claimed_at(n + 1) <= r->len; n++) {
        const size_t at = claimed_at(n);
        const int file = number_at(r->line + at), before = number_at(r->line + at - NUMBER_LEN);
        if (n != read && n != inquiry && file <= before) {
            say(text, "columns %d-%d have file %d after file %d", (int)at + 1, (int)at + NUMBER_LEN,
                file, before);
            return;
        }
    }
}

/* ---- refusals 9 to 16, 18, 20 and 21: what was asked, and what stands */

/* `file 2`, or `record 17 of file 2`. */
static void say_named(struct text *text, const struct refused *r) {
    if (r->record)
        say(text, "record %d of ", r->record);
    say(text, "file %d", r->file);
}

/* `BILLS asked for file 2`, `asked to enter as BILLS`, `asked to cancel BILLS` */
static void say_asked(struct text *text, const struct refused *r) {
    if (is_verb(r->line, "ENTER")) {
        say(text, "asked to enter");
        say_label(text, " as ", r->line + LABEL_AT, 1, "");
        return;
    }
    if (is_verb(r->line, "CANCEL")) {
        say(text, "asked to cancel");
        say_label(text, " ", r->labels, r->program, "");
        return;
    }
    say_label(text, "", r->labels, r->program, " ");
    if (is_verb(r->line, "LEAVE")) {
        say(text, "asked to leave");
    } else if (is_verb(r->line, "RETURN")) {
        say(text, "asked to return a record");
    } else if (is_verb(r->line, "CLOSE") || is_verb(r->line, "DROP")) {
        say(text, "asked to %s ", is_verb(r->line, "CLOSE") ? "close" : "drop");
        say_named(text, r);
    } else {
        say(text, "asked for ");
        say_named(text, r);
    }
}

/* The advice of docs/REFUSALS.md to whoever would remove a program with the wrong verb. */
static void say_remedy(struct text *text, const struct refused *r, const char *standing,
                       const char *verb) {
    if (removes_program(r->line))
        say(text, "; a %s program that has died is removed with %s", standing, verb);
}

/* The programs that hold back a program, a 0 after them. */
static void take_holders(const struct board_view *view, int program, uint8_t *holders) {
    int count = 0;
    for (int i = 1; i <= LOCK_BOARD_PROGRAMS; i++)
        if (i != program && holds_back_in(&view->programs[i], &view->programs[program]))
            holders[count++] = (uint8_t)i;
    holders[count] = 0;
}

/*
 * Why a program waits, and for want of an order also who is to be asked: `waits for file 4,
 * which nobody has in conflicting use, ..; held back by program 1 (STOCK)`.
 */
static void explain_wait(struct text *text, const struct refused *r, int program) {
    uint8_t holders[LOCK_BOARD_PROGRAMS + 1];
    if (say_wait(text, r->labels, r->view, program) > 0)
        return;
    take_holders(r->view, program, holders);
    say(text, "; held back by ");
    say_programs(text, r->labels, holders);
}

/* `program 2 (BILLS) runs` */
static void explain_not_absent(struct text *text, const struct refused *r) {
    const uint8_t entered[] = {(uint8_t)r->program, 0};
    const int standing = r->view->programs[r->program].standing;
    say_programs(text, r->labels, entered);
    say(text, " ");
    if (standing == LOCK_BOARD_WAITING)
        explain_wait(text, r, r->program);
    else
        say(text, standing == LOCK_BOARD_HELD ? "is held at entry" : "runs");
}

/* The claims of an ENTER. */
static void take_claims(const struct refused *r, uint64_t *claims) {
    const struct counts counts = counts_of(r->line);
    size_t n = 0;
    for (int i = 0; i < CLAIMS; i++) {
        const size_t end = n + counts.of[i];
        for (claims[i] = 0; n < end; n++)
            claims[i] |= file_set(number_at(r->line + claimed_at(n)));
    }
}

/* `the write and read claims have file 5; the read and inquiry claims have files 6, 7` */
static void explain_claims_meet(struct text *text, const struct refused *r) {
    static const char *const names[] = {"write", "read", "inquiry"};
    uint64_t claims[CLAIMS];
    const char *before = "";
    take_claims(r, claims);
    for (int i = 0; i < CLAIMS; i++) {
        for (int j = i + 1; j < CLAIMS; j++) {
            if (!(claims[i] & claims[j]))
                continue;
            say(text, "%sthe %s and %s claims have ", before, names[i], names[j]);
            say_files(text, claims[i] & claims[j]);
            before = "; ";
        }
    }
}

static void explain_absent(struct text *text, const struct refused *r) {
    uint8_t entered[LOCK_BOARD_PROGRAMS + 1];
    int count = 0;
    for (int p = 1; p <= LOCK_BOARD_PROGRAMS; p++)
        if (r->view->programs[p].standing != LOCK_BOARD_ABSENT)
            entered[count++] = (uint8_t)p;
    entered[count] = 0;
    if (count == 0) {
        say(text, "no program has entered");
        return;
    }
    say_programs(text, r->labels, entered);
    say(text, count == 1 ? " has entered" : " have entered");
}

static void explain_held(struct text *text, const struct refused *r) {
    const uint8_t favoured[] = {(uint8_t)r->view->favoured, 0};
    say_programs(text, r->labels, favoured);
    say(text, " is favoured and ");
    explain_wait(text, r, r->view->favoured);
    say_remedy(text, r, "held", "CANCEL");
}

static void explain_waiting(struct text *text, const struct refused *r) {
    explain_wait(text, r, r->program);
    say_remedy(text, r, "waiting", "CANCEL");
}

/* The advice of docs/REFUSALS.md. A drop needs none. */
static void explain_not_claimed(struct text *text, const struct refused *r) {
    const struct file_sets *claims = &r->view->programs[r->program].claims;
    say(text, files_of_all(claims) ? "may " : "claims no file");
    say_may(text, claims);
    if (is_verb(r->line, "OPEN"))
        say(text, "; add the file to the claim list; to get it, the program leaves and enters again"
                  " with the longer list");
}

static void explain_open(struct text *text, const struct refused *r) {
    say_open(text, &r->view->programs[r->program]);
}

static void explain_running(struct text *text, const struct refused *r) {
    explain_open(text, r);
    say_record(text, "; ", &r->view->programs[r->program]);
    say_remedy(text, r, "running", "LEAVE");
}

/* Of a FETCH what the program has open for inquiry, of a RETURN that it has no record. */
static void explain_no_record(struct text *text, const struct refused *r) {
    const uint64_t files = r->view->programs[r->program].open.inquiry;
    if (is_verb(r->line, "RETURN")) {
        say(text, "has no record in use");
    } else if (files) {
        say(text, "inquires into ");
        say_files(text, files);
    } else {
        say(text, "has nothing open for inquiry");
    }
}

/* The advice of docs/REFUSALS.md. */
static void explain_has_record(struct text *text, const struct refused *r) {
    say_record(text, "", &r->view->programs[r->program]);
    say(text, "; it may only return the record or leave");
}

/* ---- all refusals */

typedef void explanation(struct text *text, const struct refused *r);

static explanation *const explanations[] = {
    [LOCK_BOARD_REFUSAL_NO_VERB] = explain_verb,
    [LOCK_BOARD_REFUSAL_BAD_LENGTH] = explain_length,
    [LOCK_BOARD_REFUSAL_BAD_NUMBER] = explain_number,
    [LOCK_BOARD_REFUSAL_BAD_LABEL] = explain_label,
    [LOCK_BOARD_REFUSAL_NOT_RISING] = explain_rising,
    [LOCK_BOARD_REFUSAL_NOT_ABSENT] = explain_not_absent,
    [LOCK_BOARD_REFUSAL_CLAIMS_MEET] = explain_claims_meet,
    [LOCK_BOARD_REFUSAL_IS_ABSENT] = explain_absent,
    [LOCK_BOARD_REFUSAL_IS_HELD] = explain_held,
    [LOCK_BOARD_REFUSAL_IS_WAITING] = explain_waiting,
    [LOCK_BOARD_REFUSAL_NOT_CLAIMED] = explain_not_claimed,
    [LOCK_BOARD_REFUSAL_IS_OPEN] = explain_open,
    [LOCK_BOARD_REFUSAL_NOT_OPEN] = explain_open,
    [LOCK_BOARD_REFUSAL_IS_RUNNING] = explain_running,
    [LOCK_BOARD_REFUSAL_NO_RECORD] = explain_no_record,
    [LOCK_BOARD_REFUSAL_HAS_RECORD] = explain_has_record,
};

/* Keeps the label of a program that has entered, and forgets that of one that is gone. */
static void keep_label(uint8_t *labels, const uint8_t *line, int program) {
    uint8_t *label = labels + (program - 1) * LOCK_BOARD_LABEL_LEN;
    if (is_verb(line, "ENTER"))
        memcpy(label, line + LABEL_AT, LOCK_BOARD_LABEL_LEN);
    else if (removes_program(line))
        memset(label, 0, LOCK_BOARD_LABEL_LEN);
}

/* ` (program 2, file 1, record 17)`: what the journal line names. */
static void say_about(struct text *text, const struct refused *r) {
    if (!r->program)
        return;
    say(text, " (program %d", r->program);
    if (r->file)
        say(text, ", file %d", r->file);
    if (r->record)
        say(text, ", record %d", r->record);
    say(text, ")");
}

size_t explain_answer(char *text, size_t text_len, unsigned long number, const uint8_t *image,
                      uint8_t *labels, const uint8_t *line, size_t line_len,
                      const uint8_t *journal) {
    const int program = number_at(journal + LOCK_BOARD_JOURNAL_PROGRAM);
    const int file = number_at(journal + LOCK_BOARD_JOURNAL_FILE);
    const int refusal = number_at(journal + LOCK_BOARD_JOURNAL_REFUSAL);
    const int record = number_in(journal + LOCK_BOARD_JOURNAL_RECORD, RECORD_LEN);
    struct text all = {text, text_len, 0};
    struct board_view view;
    struct refused refused = {line, line_len, program, file, record, &view, labels};
    if (refusal == 0) {
        keep_label(labels, line, program);
        return 0;
    }
    board_view_read(&view, image);
    all.len = refusal_text(text, text_len, number, refusal);
    say_about(&all, &refused);
    say(&all, ": ");
    if (refusal >= LOCK_BOARD_REFUSAL_NOT_ABSENT) {
        say_asked(&all, &refused);
        say(&all, "; ");
    }
    if (refusal < (int)(sizeof explanations / sizeof explanations[0]) && explanations[refusal])
        explanations[refusal](&all, &refused);
    return all.len;
}
