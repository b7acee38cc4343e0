/* The lock board, for hosts in C and C++. Link with libhost.a, installed as liblockboard.a. */
#ifndef LOCK_BOARD_H
#define LOCK_BOARD_H

#include <stddef.h>
#include <stdint.h>

#ifdef __cplusplus
extern "C" {
#endif

#define LOCK_BOARD_VERSION "1.7.0" /* the image's form belongs to it; see CHANGELOG.md */

#define LOCK_BOARD_IMAGE_LEN     1827 /* bytes of a board's image */
#define LOCK_BOARD_JOURNAL_ROOM  672  /* bytes of journal that a call asks for from its place on */
#define LOCK_BOARD_JOURNAL_LINE  21   /* bytes of a journal line, byte 10 among them */
#define LOCK_BOARD_LONGEST_LINE  602  /* bytes of the longest request line in form */
#define LOCK_BOARD_CUT_LINE      603  /* bytes to which a host may cut a longer one */
#define LOCK_BOARD_HIGHEST_PLACE 1000000000 /* highest place that a call takes */
#define LOCK_BOARD_PROGRAMS      32
#define LOCK_BOARD_FILES         64
#define LOCK_BOARD_RECORDS       65535 /* highest number of a record */
#define LOCK_BOARD_SET_LEN       8     /* bytes of a set of files */
#define LOCK_BOARD_CLAIMS_LEN    24    /* bytes of a program's three claims */
#define LOCK_BOARD_LABEL_LEN     8     /* bytes of the label in an ENTER line */
#define LOCK_BOARD_MOST_PASSED   8     /* programs that are admitted, at most, while one waits */
#define LOCK_BOARD_REACH_LEN     128   /* bytes of the matrix of who reaches whom */
#define LOCK_BOARD_LOOP_ROOM     32    /* bytes that a call asks for to write a loop */

/*
 * The answer for a refusal: 2^64 less its number. So the number of a refusal is
 * LOCK_BOARD_REFUSED(answer). No other answer is above LOCK_BOARD_HIGHEST_PLACE +
 * LOCK_BOARD_JOURNAL_ROOM.
 */
#define LOCK_BOARD_REFUSED(number) (UINT64_MAX - (number) + 1)
#define LOCK_BOARD_UNSOUND         LOCK_BOARD_REFUSED(LOCK_BOARD_REFUSAL_NOT_SOUND)
#define LOCK_BOARD_JOURNAL_FULL    LOCK_BOARD_REFUSED(LOCK_BOARD_REFUSAL_JOURNAL_FULL)
#define LOCK_BOARD_NO_VERB         LOCK_BOARD_REFUSED(LOCK_BOARD_REFUSAL_NO_VERB)
#define LOCK_BOARD_BAD_LABEL       LOCK_BOARD_REFUSED(LOCK_BOARD_REFUSAL_BAD_LABEL)
#define LOCK_BOARD_OUT_OF_RANGE    LOCK_BOARD_REFUSED(LOCK_BOARD_REFUSAL_OUT_OF_RANGE)
#define LOCK_BOARD_BUFFER_SHORT    LOCK_BOARD_REFUSED(LOCK_BOARD_REFUSAL_BUFFER_SHORT)
#define LOCK_BOARD_BAD_RECORD      LOCK_BOARD_REFUSED(LOCK_BOARD_REFUSAL_BAD_RECORD)

/*
 * The numbers of the refusals; docs/REFUSALS.md has the words.
 * 1, 2 and 17 come as answers, 3 to 7, 9 to 16, 18, 20 and 21 in a REFUSE line of
 * the journal; lock_board_write answers 3, 6, 8, 17 and 19, lock_board_loop 1, 8
 * and 17. 8 and 19 never come from a request line.
 */
enum lock_board_refusal {
    LOCK_BOARD_REFUSAL_NOT_SOUND = 1,
    LOCK_BOARD_REFUSAL_JOURNAL_FULL = 2,
    LOCK_BOARD_REFUSAL_NO_VERB = 3,
    LOCK_BOARD_REFUSAL_BAD_LENGTH = 4,
    LOCK_BOARD_REFUSAL_BAD_NUMBER = 5,
    LOCK_BOARD_REFUSAL_BAD_LABEL = 6,
    LOCK_BOARD_REFUSAL_NOT_RISING = 7,
    LOCK_BOARD_REFUSAL_OUT_OF_RANGE = 8,
    LOCK_BOARD_REFUSAL_NOT_ABSENT = 9,
    LOCK_BOARD_REFUSAL_CLAIMS_MEET = 10,
    LOCK_BOARD_REFUSAL_IS_ABSENT = 11,
    LOCK_BOARD_REFUSAL_IS_HELD = 12,
    LOCK_BOARD_REFUSAL_IS_WAITING = 13,
    LOCK_BOARD_REFUSAL_NOT_CLAIMED = 14,
    LOCK_BOARD_REFUSAL_IS_OPEN = 15,
    LOCK_BOARD_REFUSAL_NOT_OPEN = 16,
    LOCK_BOARD_REFUSAL_BUFFER_SHORT = 17,
    LOCK_BOARD_REFUSAL_IS_RUNNING = 18,
    LOCK_BOARD_REFUSAL_BAD_RECORD = 19,
    LOCK_BOARD_REFUSAL_NO_RECORD = 20,
    LOCK_BOARD_REFUSAL_HAS_RECORD = 21
};

/*
 * Where things stand in an image, for hosts that look at it; only the board writes it. A set
 * of files has LOCK_BOARD_SET_LEN bytes, lowest first, file 1 the lowest bit. A line has 32
 * bytes: the numbers of its programs, oldest first, then 0. Of the counts byte p - 1 is that
 * of program p: how many programs were admitted since it began to wait, at most
 * LOCK_BOARD_MOST_PASSED; 0 unless waiting.
 */
#define LOCK_BOARD_WAITING_LINE 1088 /* the line of the programs that wait */
#define LOCK_BOARD_ENTRY_LINE   1120 /* the line of those that are held at entry */
#define LOCK_BOARD_FAVOURED     1152 /* one byte, the favoured program or 0 */
#define LOCK_BOARD_AT_FAVOURING 1153 /* one byte, the number admitted when it was favoured */
#define LOCK_BOARD_LEAVES       1154 /* one byte, the leaves since, cancels of waiters among them */
#define LOCK_BOARD_PASSED       1155 /* 32 bytes, the programs' counts */
#define LOCK_BOARD_INQUIRY      1187 /* the programs' second rows */

/*
 * Program p, 1 to 32, has two rows in it. The first has LOCK_BOARD_PROGRAM_LEN bytes, from
 * (p - 1) * LOCK_BOARD_PROGRAM_LEN on; these places are counted from its first byte. The
 * awaited file is 0 unless the program waits or has a record in use: it is the file that it
 * waits for, or that of the record.
 */
#define LOCK_BOARD_PROGRAM_LEN  34
#define LOCK_BOARD_WRITE_CLAIM  0  /* the set of files that it may write */
#define LOCK_BOARD_READ_CLAIM   8  /* those that it may only read */
#define LOCK_BOARD_WRITE_OPEN   16 /* those that it has open for writing */
#define LOCK_BOARD_READ_OPEN    24 /* those that it has open for reading */
#define LOCK_BOARD_STANDING     32 /* one byte, of enum lock_board_standing */
#define LOCK_BOARD_AWAITED_FILE 33 /* one byte */

/*
 * The second has LOCK_BOARD_INQUIRY_LEN bytes, from
 * LOCK_BOARD_INQUIRY + (p - 1) * LOCK_BOARD_INQUIRY_LEN on, and these places are counted from
 * its first byte. A record's number has two bytes, low byte first, 0 for none.
 */
#define LOCK_BOARD_INQUIRY_LEN    20
#define LOCK_BOARD_INQUIRY_CLAIM  0  /* the set of files that it may inquire into */
#define LOCK_BOARD_INQUIRY_OPEN   8  /* those that it has open for inquiry */
#define LOCK_BOARD_RECORD_IN_USE  16 /* the record that it has in use */
#define LOCK_BOARD_AWAITED_RECORD 18 /* the record that it waits for */

enum lock_board_standing {
    LOCK_BOARD_ABSENT = 0,
    LOCK_BOARD_RUNNING = 1,
    LOCK_BOARD_WAITING = 2,
    LOCK_BOARD_HELD = 3
};

/* The verbs by number, for lock_board_write. */
enum lock_board_verb {
    LOCK_BOARD_ENTER = 1,
    LOCK_BOARD_OPEN = 2,
    LOCK_BOARD_CLOSE = 3,
    LOCK_BOARD_DROP = 4,
    LOCK_BOARD_LEAVE = 5,
    LOCK_BOARD_CANCEL = 6,
    LOCK_BOARD_FETCH = 7,
    LOCK_BOARD_RETURN = 8
};

/*
 * Where the numbers of a journal line begin, three columns each, the record's five; its word
 * begins at 0.
 */
#define LOCK_BOARD_JOURNAL_PROGRAM 6
#define LOCK_BOARD_JOURNAL_FILE    9
#define LOCK_BOARD_JOURNAL_REFUSAL 12
#define LOCK_BOARD_JOURNAL_RECORD  15

/*
 * For all functions:
 * - All buffers are the caller's. The board keeps no pointer after the call,
 *   allocates nothing and has no state of its own.
 * - No pointer may be null, not even with a length of 0. Each points to as many
 *   bytes as its length says, and no two buffers of a call overlap. All else is
 *   checked: any bytes, lengths and numbers are safe.
 * - Calls may run in several threads at once, but no two calls on the same
 *   image, journal, order, written line, matrix or loop. Allow a call 64 KB of
 *   stack.
 */

/*
 * Fills the image with the empty board and answers 0. If image_len is not
 * LOCK_BOARD_IMAGE_LEN, nothing is written and the answer is
 * LOCK_BOARD_UNSOUND.
 */
uint64_t lock_board_empty(uint8_t *image, size_t image_len);

/*
 * Serves one request line, handed over without its byte 10, on the board that
 * the image holds. Writes the journal lines, 1 to 32 of them, into the journal
 * from the place on, and answers the new place, after the last of them. The
 * first is the answer; lines for other programs may follow: GIVEN, ADMIT and
 * FAVOUR after DONE, FAVOUR after HELD. GIVEN and FAVOUR name a file or, with a
 * record that is not 0, a record of it: GIVEN after the DONE of a RETURN or a
 * LEAVE may be for the record that the program had in use.
 *
 * The image then holds the board after the call. After a refusal it has the
 * same bytes as before; refusals 3 to 7, 9 to 16, 18, 20 and 21 write one REFUSE
 * line. Journal bytes outside the written lines keep their contents.
 *
 * LOCK_BOARD_UNSOUND: the image is not LOCK_BOARD_IMAGE_LEN bytes, not of its
 * layout, or its board is not sound. Nothing is written.
 *
 * LOCK_BOARD_JOURNAL_FULL: the place is above LOCK_BOARD_HIGHEST_PLACE, or
 * place + LOCK_BOARD_JOURNAL_ROOM is above journal_len. Nothing is written.
 */
uint64_t lock_board_line(uint8_t *image, size_t image_len, const uint8_t *line, size_t line_len,
                         uint8_t *journal, size_t journal_len, uint64_t place);

/*
 * Writes the completion order that the image's board carries into the order's
 * buffer: the numbers of the admitted programs, a byte each, from its start on.
 * Answers how many; LOCK_BOARD_PROGRAMS bytes are always enough. Bytes after
 * them keep their contents. The image is only read.
 *
 * LOCK_BOARD_UNSOUND: as above. LOCK_BOARD_BUFFER_SHORT: order_len is less than
 * the number of admitted programs. Nothing is written.
 */
uint64_t lock_board_order(const uint8_t *image, size_t image_len, uint8_t *order, size_t order_len);

/*
 * Which programs hold back which, over any number of steps. i holds back j,
 * another program, if a file that i has open for writing is in a claim of j, one
 * that it has open for reading in the write or the inquiry claim of j, or one that
 * it has open for inquiry in the write or the read claim of j. i reaches p if a
 * path of one or more such steps leads from i to p, all of them between admitted
 * programs (running or waiting).
 *
 * Writes the matrix of the image's board into rows, LOCK_BOARD_REACH_LEN bytes
 * from the start on, and answers LOCK_BOARD_REACH_LEN. It has a row for each
 * program from 1 to 32, a 32-bit number in 4 bytes, lowest first: in the row of
 * program p, which begins at 4 * (p - 1), bit i - 1 is set if i reaches p. So the
 * row of p has those who come before p in every completion order. Rows and bits of
 * programs that are not admitted are 0. No program reaches itself, since the board
 * is sound. Bytes after the matrix keep their contents. The image is only read.
 *
 * A refusal writes nothing. The first that applies is the answer:
 * LOCK_BOARD_UNSOUND: as above.
 * LOCK_BOARD_BUFFER_SHORT: rows_len is less than LOCK_BOARD_REACH_LEN.
 */
uint64_t lock_board_reach(const uint8_t *image, size_t image_len, uint8_t *rows, size_t rows_len);

/*
 * Why a waiting program cannot have its file: a loop. That is a list of two or
 * more different admitted programs, each holding back the next and the last the
 * first, with the file given: on the image's board with the file that the program
 * waits for among those that it has open. Every program that waits for a file has
 * one. Which of several is written, and with which of its programs it begins, is
 * not said.
 *
 * Writes the programs' numbers, a byte each, into the list from its start on, and
 * answers how many, 2 to 32. For a program that does not wait the answer is 0, and
 * nothing is written; so too for one that waits for a record, since it has the file
 * open already. Bytes after the programs keep their contents. The image is only
 * read.
 *
 * A refusal writes nothing. The first that applies is the answer:
 * LOCK_BOARD_UNSOUND: as above.
 * LOCK_BOARD_OUT_OF_RANGE: program is not 1 to LOCK_BOARD_PROGRAMS.
 * LOCK_BOARD_BUFFER_SHORT: list_len is less than LOCK_BOARD_LOOP_ROOM, however
 * long the loop is.
 */
uint64_t lock_board_loop(const uint8_t *image, size_t image_len, uint64_t program, uint8_t *list,
                         size_t list_len);

/*
 * Answers 1 if the list is a loop, as above, on the image's board with this file
 * given to this program, and 0 if it is not. The program need not wait, nor for
 * this file. 0 too if the program is not admitted or no program at all, or if the
 * file is in none of its claims or no file at all. The list may be of any
 * length and have any bytes. Nothing is written.
 *
 * LOCK_BOARD_UNSOUND: as above.
 */
uint64_t lock_board_is_loop(const uint8_t *image, size_t image_len, uint64_t program, uint64_t file,
                            const uint8_t *list, size_t list_len);

/*
 * Writes the request line of a call into the line's buffer, from its start on
 * and without a byte 10, ready for lock_board_line. Answers its length;
 * LOCK_BOARD_LONGEST_LINE bytes are always enough. Bytes after the line keep
 * their contents.
 *
 * verb is one of enum lock_board_verb. file is for OPEN, CLOSE, DROP and FETCH,
 * record for FETCH. For ENTER, the claims are three sets of files as in an image,
 * LOCK_BOARD_CLAIMS_LEN bytes in all: those that the program may write, those that
 * it may only read and those that it may inquire into; the label has
 * LOCK_BOARD_LABEL_LEN bytes. What a verb does not use is not looked at; the
 * pointers to claims and label are not null all the same. Claims that meet are
 * written; lock_board_line refuses that line with 10.
 *
 * A refusal writes nothing. The first that applies is the answer:
 * LOCK_BOARD_NO_VERB: verb is not 1 to 8.
 * LOCK_BOARD_OUT_OF_RANGE: program is not 1 to LOCK_BOARD_PROGRAMS, or, for OPEN,
 * CLOSE, DROP and FETCH, file is not 1 to LOCK_BOARD_FILES, or, for ENTER,
 * claims_len is not LOCK_BOARD_CLAIMS_LEN.
 * LOCK_BOARD_BAD_RECORD: for FETCH, record is not 1 to LOCK_BOARD_RECORDS.
 * LOCK_BOARD_BAD_LABEL: for ENTER, label_len is not LOCK_BOARD_LABEL_LEN, or a
 * byte of the label is outside 32 to 126.
 * LOCK_BOARD_BUFFER_SHORT: line_len is less than the line's length.
 */
uint64_t lock_board_write(uint64_t verb, uint64_t program, uint64_t file, uint64_t record,
                          const uint8_t *claims, size_t claims_len, const uint8_t *label,
                          size_t label_len, uint8_t *line, size_t line_len);

#ifdef __cplusplus
}
#endif

#endif
