      * The lock board, for hosts in GnuCOBOL on x86-64.
      * Copy this into WORKING-STORAGE and link with libhost.a.
      *
      * The calls:
      *     CALL STATIC "lock_board_empty" USING
      *         BY REFERENCE LB-IMAGE BY VALUE SIZE AUTO LB-IMAGE-LEN
      *         RETURNING LB-ANSWER
      *     CALL STATIC "lock_board_line" USING
      *         BY REFERENCE LB-IMAGE BY VALUE SIZE AUTO LB-IMAGE-LEN
      *         BY REFERENCE LB-REQUEST
      *         BY VALUE SIZE AUTO LB-REQUEST-LEN
      *         BY REFERENCE LB-JOURNAL
      *         BY VALUE SIZE AUTO LB-JOURNAL-LEN
      *         BY VALUE SIZE AUTO LB-PLACE
      *         RETURNING LB-ANSWER
      *     CALL STATIC "lock_board_order" USING
      *         BY REFERENCE LB-IMAGE BY VALUE SIZE AUTO LB-IMAGE-LEN
      *         BY REFERENCE LB-ORDER BY VALUE SIZE AUTO LB-ORDER-LEN
      *         RETURNING LB-ANSWER
      *     CALL STATIC "lock_board_reach" USING
      *         BY REFERENCE LB-IMAGE BY VALUE SIZE AUTO LB-IMAGE-LEN
      *         BY REFERENCE LB-REACH BY VALUE SIZE AUTO LB-REACH-LEN
      *         RETURNING LB-ANSWER
      *     CALL STATIC "lock_board_loop" USING
      *         BY REFERENCE LB-IMAGE BY VALUE SIZE AUTO LB-IMAGE-LEN
      *         BY VALUE SIZE AUTO LB-CALL-PROGRAM
      *         BY REFERENCE LB-LOOP BY VALUE SIZE AUTO LB-LOOP-ROOM
      *         RETURNING LB-ANSWER
      *     CALL STATIC "lock_board_is_loop" USING
      *         BY REFERENCE LB-IMAGE BY VALUE SIZE AUTO LB-IMAGE-LEN
      *         BY VALUE SIZE AUTO LB-CALL-PROGRAM
      *         BY VALUE SIZE AUTO LB-CALL-FILE
      *         BY REFERENCE LB-LOOP BY VALUE SIZE AUTO LB-LOOP-LEN
      *         RETURNING LB-ANSWER
      *     CALL STATIC "lock_board_write" USING
      *         BY VALUE SIZE AUTO LB-CALL-VERB
      *         BY VALUE SIZE AUTO LB-CALL-PROGRAM
      *         BY VALUE SIZE AUTO LB-CALL-FILE
      *         BY VALUE SIZE AUTO LB-CALL-RECORD
      *         BY REFERENCE LB-CALL-CLAIMS
      *         BY VALUE SIZE AUTO LB-CLAIMS-LEN
      *         BY REFERENCE LB-CALL-LABEL
      *         BY VALUE SIZE AUTO LB-LABEL-LEN
      *         BY REFERENCE LB-REQUEST
      *         BY VALUE SIZE AUTO LB-REQUEST-ROOM
      *         RETURNING LB-ANSWER
      *
      * Numbers go BY VALUE with SIZE AUTO: without it cobc hands
      * over 32 bits of them and not 64.
      * The board keeps nothing between calls but what is in the image.
       01  LB-IMAGE-LEN        BINARY-DOUBLE UNSIGNED VALUE 1827.
       01  LB-REQUEST-LEN      BINARY-DOUBLE UNSIGNED VALUE 0.
       01  LB-JOURNAL-LEN      BINARY-DOUBLE UNSIGNED VALUE 672.
       01  LB-PLACE            BINARY-DOUBLE UNSIGNED VALUE 0.
       01  LB-ORDER-LEN        BINARY-DOUBLE UNSIGNED VALUE 32.
       01  LB-REACH-LEN        BINARY-DOUBLE UNSIGNED VALUE 128.
       01  LB-LOOP-ROOM        BINARY-DOUBLE UNSIGNED VALUE 32.
       01  LB-LOOP-LEN         BINARY-DOUBLE UNSIGNED VALUE 0.
       01  LB-CLAIMS-LEN       BINARY-DOUBLE UNSIGNED VALUE 24.
       01  LB-LABEL-LEN        BINARY-DOUBLE UNSIGNED VALUE 8.
       01  LB-REQUEST-ROOM     BINARY-DOUBLE UNSIGNED VALUE 603.

      * The answer: the new place in the journal, the number of
      * programs in the order or the loop, the length of the written
      * line or the matrix, 1 for a list that is a loop, or a refusal.
      * cobc takes a function's answer as a signed 32-bit number.
      * Every such answer fits into one; 2 to the power of 64 less a
      * refusal's number comes as that number below 0. An unsigned
      * item here would show refusal 1 as place 1.
       01  LB-ANSWER           BINARY-LONG SIGNED.
           88  LB-UNSOUND      VALUE -1.
           88  LB-JOURNAL-FULL VALUE -2.
           88  LB-WRITE-NO-VERB VALUE -3.
           88  LB-WRITE-BAD-LABEL VALUE -6.
           88  LB-WRITE-OUT-OF-RANGE VALUE -8.
           88  LB-LOOP-OUT-OF-RANGE VALUE -8.
           88  LB-BUFFER-SHORT VALUE -17.
           88  LB-WRITE-BAD-RECORD VALUE -19.

      * The image of a board. In a set file 1 is the lowest bit.
       01  LB-IMAGE.
           05  LB-PROGRAM OCCURS 32 TIMES.
               10  LB-WRITE-CLAIM  BINARY-DOUBLE UNSIGNED.
               10  LB-READ-CLAIM   BINARY-DOUBLE UNSIGNED.
               10  LB-WRITE-OPEN   BINARY-DOUBLE UNSIGNED.
               10  LB-READ-OPEN    BINARY-DOUBLE UNSIGNED.
               10  LB-STANDING     BINARY-CHAR UNSIGNED.
                   88  LB-ABSENT   VALUE 0.
                   88  LB-RUNNING  VALUE 1.
                   88  LB-WAITING  VALUE 2.
                   88  LB-HELD     VALUE 3.
      *        The file that it waits for, or that of its record; 0
      *        unless it waits or has a record in use
               10  LB-AWAITED-FILE BINARY-CHAR UNSIGNED.
           05  LB-WAITING-LINE     BINARY-CHAR UNSIGNED
                                   OCCURS 32 TIMES.
           05  LB-ENTRY-LINE       BINARY-CHAR UNSIGNED
                                   OCCURS 32 TIMES.
           05  LB-FAVOURED         BINARY-CHAR UNSIGNED.
           05  LB-AT-FAVOURING     BINARY-CHAR UNSIGNED.
      *    The leaves since, cancels of waiters among them
           05  LB-LEAVES           BINARY-CHAR UNSIGNED.
      *    LB-PASSED (p): how many programs were admitted since p
      *    began to wait; 0 unless waiting
           05  LB-PASSED           BINARY-CHAR UNSIGNED
                                   OCCURS 32 TIMES.
      *    The second rows of the programs. A record is 0 for none.
           05  LB-INQUIRY OCCURS 32 TIMES.
               10  LB-INQUIRY-CLAIM BINARY-DOUBLE UNSIGNED.
               10  LB-INQUIRY-OPEN BINARY-DOUBLE UNSIGNED.
               10  LB-RECORD-IN-USE BINARY-SHORT UNSIGNED.
               10  LB-AWAITED-RECORD BINARY-SHORT UNSIGNED.
      * The highest of these counts.
       01  LB-MOST-PASSED          CONSTANT AS 8.

      * A request line, handed over with its length:
      * LEAVE, CANCEL and RETURN 9, OPEN, CLOSE and DROP 12, FETCH
      * 17, ENTER 26 and 3 a file.
      * A number moved to a ZZ9 or ZZZZ9 item stands there in form.
       01  LB-REQUEST.
           05  LB-VERB             PIC X(6).
               88  LB-VERB-ENTER   VALUE "ENTER".
               88  LB-VERB-OPEN    VALUE "OPEN".
               88  LB-VERB-CLOSE   VALUE "CLOSE".
               88  LB-VERB-DROP    VALUE "DROP".
               88  LB-VERB-LEAVE   VALUE "LEAVE".
               88  LB-VERB-CANCEL  VALUE "CANCEL".
               88  LB-VERB-FETCH   VALUE "FETCH".
               88  LB-VERB-RETURN  VALUE "RETURN".
           05  LB-REQ-PROGRAM      PIC ZZ9.
           05  LB-REQ-REST         PIC X(594).
      *    OPEN, CLOSE and DROP; FETCH has a record too
           05  LB-REQ-ONE-FILE REDEFINES LB-REQ-REST.
               10  LB-REQ-FILE     PIC ZZ9.
               10  LB-REQ-RECORD   PIC ZZZZ9.
               10  FILLER          PIC X(586).
      *    ENTER: first the files to write, then those only read,
      *    then those to inquire into
           05  LB-REQ-ENTER REDEFINES LB-REQ-REST.
               10  LB-LABEL        PIC X(8).
               10  LB-WRITE-COUNT  PIC ZZ9.
               10  LB-READ-COUNT   PIC ZZ9.
               10  LB-INQUIRY-COUNT PIC ZZ9.
               10  LB-CLAIMED-FILE PIC ZZ9 OCCURS 192 TIMES.
               10  FILLER          PIC X.
       01  LB-LONGEST-REQUEST      CONSTANT AS 602.
       01  LB-CUT-REQUEST          CONSTANT AS 603.
      * The highest number of a record.
       01  LB-RECORDS              CONSTANT AS 65535.

      * A call, from which lock_board_write makes LB-REQUEST: its
      * length is LB-ANSWER, to be moved to LB-REQUEST-LEN. The file
      * is for OPEN, CLOSE, DROP and FETCH, the record for FETCH; the
      * claims and the label are for ENTER. A claim is the sum of the
      * bits of its files, each file once:
      *     MOVE 0 TO LB-CALL-WRITABLE
      *     ADD LB-FILE-BIT (2) LB-FILE-BIT (5) TO LB-CALL-WRITABLE
       01  LB-CALL.
           05  LB-CALL-VERB        BINARY-DOUBLE UNSIGNED.
               88  LB-CALL-ENTER   VALUE 1.
               88  LB-CALL-OPEN    VALUE 2.
               88  LB-CALL-CLOSE   VALUE 3.
               88  LB-CALL-DROP    VALUE 4.
               88  LB-CALL-LEAVE   VALUE 5.
               88  LB-CALL-CANCEL  VALUE 6.
               88  LB-CALL-FETCH   VALUE 7.
               88  LB-CALL-RETURN  VALUE 8.
           05  LB-CALL-PROGRAM     BINARY-DOUBLE UNSIGNED.
           05  LB-CALL-FILE        BINARY-DOUBLE UNSIGNED.
           05  LB-CALL-RECORD      BINARY-DOUBLE UNSIGNED.
           05  LB-CALL-CLAIMS.
               10  LB-CALL-WRITABLE BINARY-DOUBLE UNSIGNED.
               10  LB-CALL-READABLE BINARY-DOUBLE UNSIGNED.
               10  LB-CALL-INQUIRABLE BINARY-DOUBLE UNSIGNED.
           05  LB-CALL-LABEL       PIC X(8).

      * LB-FILE-BIT (n) is 2 to the power of n - 1. Eight files take
      * 64 bytes; one byte more, and the next eight have their bits
      * in the next byte.
       01  LB-FILE-BITS.
           05  FILLER OCCURS 8 TIMES.
               10  FILLER          PIC X(8) VALUE X"0100000000000000".
               10  FILLER          PIC X(8) VALUE X"0200000000000000".
               10  FILLER          PIC X(8) VALUE X"0400000000000000".
               10  FILLER          PIC X(8) VALUE X"0800000000000000".
               10  FILLER          PIC X(8) VALUE X"1000000000000000".
               10  FILLER          PIC X(8) VALUE X"2000000000000000".
               10  FILLER          PIC X(8) VALUE X"4000000000000000".
               10  FILLER          PIC X(8) VALUE X"8000000000000000".
               10  FILLER          PIC X VALUE X"00".
       01  LB-FILE-BIT-TABLE REDEFINES LB-FILE-BITS.
           05  LB-FILE-BIT         BINARY-DOUBLE UNSIGNED
                                   OCCURS 64 TIMES.
           05  FILLER              PIC X(8).

      * The journal of one call: at most 32 lines of 20 columns and
      * byte 10. There are LB-ANSWER / 21 of them from place 0 on.
      * The first is the answer; lines for other programs may follow:
      * GIVEN, ADMIT and FAVOUR after DONE, FAVOUR after HELD. With a
      * record that is not 0, the line is about that record of the
      * file.
       01  LB-JOURNAL.
           05  LB-JOURNAL-LINE OCCURS 32 TIMES.
               10  LB-COLUMNS.
                   15  LB-WORD         PIC X(6).
                       88  LB-ADMIT    VALUE "ADMIT".
                       88  LB-HELD-AT-ENTRY VALUE "HELD".
                       88  LB-GIVEN    VALUE "GIVEN".
                       88  LB-WAIT     VALUE "WAIT".
                       88  LB-UNSAFE   VALUE "UNSAFE".
                       88  LB-DONE     VALUE "DONE".
                       88  LB-FAVOUR   VALUE "FAVOUR".
                       88  LB-REFUSE   VALUE "REFUSE".
                   15  LB-JNL-PROGRAM  PIC ZZ9.
                   15  LB-JNL-FILE     PIC ZZ9.
                   15  LB-JNL-REFUSAL  PIC ZZ9.
                   15  LB-JNL-RECORD   PIC ZZZZ9.
               10  FILLER              PIC X.
       01  LB-JOURNAL-LINE-LEN     CONSTANT AS 21.
       01  LB-HIGHEST-PLACE        CONSTANT AS 1000000000.

      * The completion order: LB-ANSWER programs from the first on.
       01  LB-ORDER.
           05  LB-ORDER-PROGRAM    BINARY-CHAR UNSIGNED
                                   OCCURS 32 TIMES.

      * The matrix of who reaches whom over steps of holding back. In
      * LB-REACHED-BY (p) the bit of each program that reaches p is
      * set, the lowest that of program 1. So i reaches p if
      *     FUNCTION MOD (FUNCTION INTEGER
      *         (LB-REACHED-BY (p) / LB-FILE-BIT (i)) 2) = 1
       01  LB-REACH.
           05  LB-REACHED-BY       BINARY-LONG UNSIGNED
                                   OCCURS 32 TIMES.

      * A loop: LB-ANSWER programs from the first on, each holding
      * back the next and the last the first, with the file given
      * that LB-CALL-PROGRAM waits for; none if it does not wait, or
      * waits for a record. To ask whether a list is a loop,
      * LB-CALL-FILE is the file given and LB-LOOP-LEN the number of
      * programs.
       01  LB-LOOP.
           05  LB-LOOP-PROGRAM     BINARY-CHAR UNSIGNED
                                   OCCURS 32 TIMES.

      * The refusals; docs/REFUSALS.md has their words.
       01  LB-REFUSAL              PIC 9(3) COMP-5.
           88  LB-NOT-SOUND        VALUE 1.
           88  LB-NO-ROOM          VALUE 2.
           88  LB-NO-VERB          VALUE 3.
           88  LB-BAD-LENGTH       VALUE 4.
           88  LB-BAD-NUMBER       VALUE 5.
           88  LB-BAD-LABEL        VALUE 6.
           88  LB-NOT-RISING       VALUE 7.
           88  LB-OUT-OF-RANGE     VALUE 8.
           88  LB-NOT-ABSENT       VALUE 9.
           88  LB-CLAIMS-MEET      VALUE 10.
           88  LB-IS-ABSENT        VALUE 11.
           88  LB-IS-HELD          VALUE 12.
           88  LB-IS-WAITING       VALUE 13.
           88  LB-NOT-CLAIMED      VALUE 14.
           88  LB-IS-OPEN          VALUE 15.
           88  LB-NOT-OPEN         VALUE 16.
           88  LB-SHORT-BUFFER     VALUE 17.
           88  LB-IS-RUNNING       VALUE 18.
           88  LB-BAD-RECORD       VALUE 19.
           88  LB-NO-RECORD        VALUE 20.
           88  LB-HAS-RECORD       VALUE 21.
