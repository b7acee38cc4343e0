#include "board_view.h"

#include <string.h>

/* A set of files: 8 bytes, lowest first. */
static uint64_t set_at(const uint8_t *bytes) {
    uint64_t set = 0;
    for (int i = LOCK_BOARD_SET_LEN - 1; i >= 0; i--)
        set = set << 8 | bytes[i];
    return set;
}

/* The number of a record: 2 bytes, low byte first. */
static int record_at(const uint8_t *bytes) { return bytes[0] | bytes[1] << 8; }

static struct program_view program_of(const uint8_t *image, int p) {
    const uint8_t *first = image + (p - 1) * LOCK_BOARD_PROGRAM_LEN;
    const uint8_t *second = image + LOCK_BOARD_INQUIRY + (p - 1) * LOCK_BOARD_INQUIRY_LEN;
    struct program_view program;
    program.claims.write = set_at(first + LOCK_BOARD_WRITE_CLAIM);
    program.claims.read = set_at(first + LOCK_BOARD_READ_CLAIM);
    program.claims.inquiry = set_at(second + LOCK_BOARD_INQUIRY_CLAIM);
    program.open.write = set_at(first + LOCK_BOARD_WRITE_OPEN);
    program.open.read = set_at(first + LOCK_BOARD_READ_OPEN);
    program.open.inquiry = set_at(second + LOCK_BOARD_INQUIRY_OPEN);
    program.standing = first[LOCK_BOARD_STANDING];
    program.file = first[LOCK_BOARD_AWAITED_FILE];
    program.record_in_use = record_at(second + LOCK_BOARD_RECORD_IN_USE);
    program.awaited_record = record_at(second + LOCK_BOARD_AWAITED_RECORD);
    program.passed = image[LOCK_BOARD_PASSED + p - 1];
    return program;
}

void board_view_read(struct board_view *view, const uint8_t *image) {
    memset(view, 0, sizeof *view);
    for (int p = 1; p <= LOCK_BOARD_PROGRAMS; p++)
        view->programs[p] = program_of(image, p);
    memcpy(view->waiting_line, image + LOCK_BOARD_WAITING_LINE, LOCK_BOARD_PROGRAMS);
    memcpy(view->entry_line, image + LOCK_BOARD_ENTRY_LINE, LOCK_BOARD_PROGRAMS);
    view->favoured = image[LOCK_BOARD_FAVOURED];
    view->at_favouring = image[LOCK_BOARD_AT_FAVOURING];
    view->leaves = image[LOCK_BOARD_LEAVES];
}

uint64_t file_set(int file) { return (uint64_t)1 << (file - 1); }

int lowest_file(uint64_t files) {
    for (int f = 1; f <= LOCK_BOARD_FILES; f++)
        if (files & file_set(f))
            return f;
    return 0;
}

uint64_t files_of_all(const struct file_sets *sets) {
    return sets->write | sets->read | sets->inquiry;
}

int is_admitted(const struct program_view *program) {
    return program->standing == LOCK_BOARD_RUNNING || program->standing == LOCK_BOARD_WAITING;
}

int waits_for_record(const struct program_view *program) { return program->awaited_record != 0; }

/* One half of conflict: W of i meets W, R or I of j, or R of i meets I of j. */
static int meets_in_use(const struct file_sets *i, const struct file_sets *j) {
    return ((i->write & files_of_all(j)) | (i->read & j->inquiry)) != 0;
}

int in_conflict(const struct program_view *i, const struct program_view *j) {
    return meets_in_use(&i->open, &j->open) || meets_in_use(&j->open, &i->open);
}

uint64_t holds_back_in(const struct program_view *i, const struct program_view *j) {
    return (i->open.write & files_of_all(&j->claims)) |
           (i->open.read & (j->claims.write | j->claims.inquiry)) |
           (i->open.inquiry & (j->claims.write | j->claims.read));
}

struct program_view with_file_given(const struct program_view *program) {
    struct program_view given = *program;
    const uint64_t file = file_set(given.file);
    given.open.write |= file & given.claims.write;
    given.open.read |= file & given.claims.read;
    given.open.inquiry |= file & given.claims.inquiry;
    return given;
}

int has_in_conflicting_use(const struct board_view *view, int i, int p) {
    const struct program_view given = with_file_given(&view->programs[p]);
    return i != p && in_conflict(&view->programs[i], &given);
}

int waits_for_order(const struct board_view *view, int p) {
    const struct program_view *program = &view->programs[p];
    if (program->standing != LOCK_BOARD_WAITING || waits_for_record(program))
        return 0;
    for (int i = 1; i <= LOCK_BOARD_PROGRAMS; i++)
        if (has_in_conflicting_use(view, i, p))
            return 0;
    return 1;
}

/* Whether the record that i has in use is the one that j waits for. */
static int has_awaited_record(const struct program_view *i, const struct program_view *j) {
    return i->record_in_use != 0 && i->record_in_use == j->awaited_record && i->file == j->file;
}

int user_of_awaited_record(const struct board_view *view, int p) {
    for (int i = 1; i <= LOCK_BOARD_PROGRAMS; i++)
        if (has_awaited_record(&view->programs[i], &view->programs[p]))
            return i;
    return 0;
}

int oldest_waiter_for_record(const struct board_view *view, int p) {
    const uint8_t *waiter = view->waiting_line;
    while (*waiter && !has_awaited_record(&view->programs[p], &view->programs[*waiter]))
        waiter++;
    return *waiter;
}

/* At the latest with the leave that brings the leaves to the number at favouring less one. */
int leaves_to_come(const struct board_view *view) { return view->at_favouring - 1 - view->leaves; }
