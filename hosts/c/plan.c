#include "plan.h"

#include "board_view.h"
#include "image_file.h"
#include "show.h"

#include <stdio.h>
#include <string.h>

/*
 * Writes a request of the plan and serves it on a copy of the image; answers 0, or -1 after a
 * message if its answer is another one than this (not met: it is proved).
 */
static int plan_request(uint8_t *copy, enum lock_board_verb verb, int program, int file,
                        const char *answer) {
    uint8_t line[LOCK_BOARD_LONGEST_LINE], journal[LOCK_BOARD_JOURNAL_ROOM] = {0};
    const uint8_t none[] = {0};
    const uint64_t len = lock_board_write(verb, (uint64_t)program, (uint64_t)file, 0, none, 0, none,
                                          0, line, sizeof line);
    if (len <= sizeof line)
        lock_board_line(copy, LOCK_BOARD_IMAGE_LEN, line, len, journal, sizeof journal, 0);
    if (memcmp(journal, answer, strlen(answer)) != 0) {
        fprintf(stderr,
                "the plan ends here, with a request of program %d that is not answered %s\n",
                program, answer);
        return -1;
    }
    printf("%.*s\n", (int)len, (const char *)line);
    return 0;
}

/* The lowest-numbered program that has a record in use, 0 if none has. */
static int lowest_user(const struct board_view *view) {
    for (int p = 1; p <= LOCK_BOARD_PROGRAMS; p++)
        if (view->programs[p].record_in_use)
            return p;
    return 0;
}

/* "CR 4 begins with no record in use": each is returned, and again by those who waited for it. */
static int plan_returns(uint8_t *copy) {
    struct board_view view;
    int user = 0;
    for (;;) {
        board_view_read(&view, copy);
        if (!user)
            user = lowest_user(&view);
        if (!user)
            return 0;
        if (plan_request(copy, LOCK_BOARD_RETURN, user, 0, "DONE") < 0)
            return -1;
        user = oldest_waiter_for_record(&view, user);
    }
}

/*
 * "In a round the order's first program opens each claimed file that it hasn't open, rising, then
 * leaves."
 */
static int plan_round(uint8_t *copy, int first) {
    struct board_view view;
    const struct program_view *program = &view.programs[first];
    uint64_t to_open;
    board_view_read(&view, copy);
    to_open = files_of_all(&program->claims) & ~files_of_all(&program->open);
    for (int file = 1; file <= LOCK_BOARD_FILES; file++)
        if ((to_open & file_set(file)) &&
            plan_request(copy, LOCK_BOARD_OPEN, first, file, "GIVEN") < 0)
            return -1;
    return plan_request(copy, LOCK_BOARD_LEAVE, first, 0, "DONE");
}

int write_plan(const char *path) {
    uint8_t copy[LOCK_BOARD_IMAGE_LEN], order[LOCK_BOARD_PROGRAMS];
    if (image_file_read(path, copy) < 0)
        return 1;
    if (plan_returns(copy) < 0)
        return 1;
    while (lock_board_order(copy, sizeof copy, order, sizeof order) > 0)
        if (plan_round(copy, order[0]) < 0)
            return 1;
    return shown("the plan cannot be written");
}
