/*
 * What an image holds, read by the layout that lock_board.h describes, and the two
 * relations between programs of 01 and 02. For images that hold a sound board.
 */
#ifndef BOARD_VIEW_H
#define BOARD_VIEW_H

#include "lock_board.h"

/* A set of files for each way of use; in a set file 1 is the lowest bit. */
struct file_sets {
    uint64_t write, read, inquiry;
};

struct program_view {
    struct file_sets claims; /* V, Q and J */
    struct file_sets open;   /* W, R and I */
    int standing;            /* of enum lock_board_standing */
    int file;                /* the file that it waits for, or that of its record; 0 for none */
    int record_in_use;       /* the number of its record, 0 for none */
    int awaited_record;      /* the number of the record that it waits for, 0 for none */
    int passed; /* how many programs were admitted since it began to wait, 0 unless waiting */
};

struct board_view {
    struct program_view programs[LOCK_BOARD_PROGRAMS + 1]; /* from 1 on */
    uint8_t waiting_line[LOCK_BOARD_PROGRAMS + 1];         /* oldest first, then 0 */
    uint8_t entry_line[LOCK_BOARD_PROGRAMS + 1];
    int favoured, at_favouring, leaves;
};

void board_view_read(struct board_view *view, const uint8_t *image);

/* The set of one file, 1 to 64. */
uint64_t file_set(int file);

/* The lowest file of a set, 0 if there is none. */
int lowest_file(uint64_t files);

/* The files of all three sets. */
uint64_t files_of_all(const struct file_sets *sets);

/* Running or waiting. */
int is_admitted(const struct program_view *program);

/* Waiting for a record; one that waits but not for a record waits for a file. */
int waits_for_record(const struct program_view *program);

/*
 * "They conflict if W of one meets W or R of the other." "I of one conflicts with W and R
 * of another, never with I."
 */
int in_conflict(const struct program_view *i, const struct program_view *j);

/*
 * "i holds back j if W of i meets V or Q of j, or R of i meets V of j", "also if I of i
 * meets V or Q of j, or W or R of i meets J of j": the files in which they meet; none if i
 * does not hold back j.
 */
uint64_t holds_back_in(const struct program_view *i, const struct program_view *j);

/*
 * A program with the file given that it waits for: it "joins the open files of p, in
 * the way that its claim says".
 */
struct program_view with_file_given(const struct program_view *program);

/*
 * Whether program i has the file that program p waits for in conflicting use:
 * "if, with f given, it and p would conflict".
 */
int has_in_conflicting_use(const struct board_view *view, int i, int p);

/* Whether program p waits for want of an order: for a file that nobody has in conflicting use. */
int waits_for_order(const struct board_view *view, int p);

/* The user of the record that program p waits for: "an awaited record is in use". */
int user_of_awaited_record(const struct board_view *view, int p);

/*
 * The oldest waiter for the record that program p has in use, which it gets when p
 * returns it; 0 if there is none.
 */
int oldest_waiter_for_record(const struct board_view *view, int p);

/*
 * The leaves that are still to come, at most, until the favoured program gets its
 * file or record. A cancel of another waiter counts as a leave.
 */
int leaves_to_come(const struct board_view *view);

#endif
