       IDENTIFICATION DIVISION.
       PROGRAM-ID. COUNTER.
      * An example host: a counter's driver, which serves request
      * lines from standard input.
      *     COUNTER [--image FILE] serve; FILE keeps the board from
      *                            session to session
      *     COUNTER --refusals     list the refusals and their words
      *     COUNTER --version      show the version and the kit
      * The journal goes to standard output, last the ORDER line.
      * The operator sees each refusal in words on standard error.
      * RETURN-CODE: 0 if every line was served, refused ones too;
      * 1 if the image, reading or writing failed; 2 for wrong
      * arguments.
      * The functions image_file, session, refusal_text,
      * explain_answer, list_refusals and show_version are those of
      * the host in C (hosts/c).
       ENVIRONMENT DIVISION.
       INPUT-OUTPUT SECTION.
       FILE-CONTROL.
           SELECT JOURNAL-FILE ASSIGN TO DISPLAY
               ORGANIZATION IS LINE SEQUENTIAL.

       DATA DIVISION.
       FILE SECTION.
       FD  JOURNAL-FILE.
       01  JOURNAL-RECORD          PIC X(20).

       WORKING-STORAGE SECTION.
           COPY LOCKBRD.

       01  ARGUMENT-COUNT          PIC 9(4) COMP-5.
       01  ARGUMENT                PIC X(80).
       01  IMAGE-ARGUMENT          PIC X(4096).
       01  IMAGE-PATH              PIC X(4097).
       01  NEXT-BYTE               PIC X.
           88  END-OF-LINE         VALUE X"0A".
       01  BYTES-READ              BINARY-LONG SIGNED.
           88  END-OF-INPUT        VALUE 0.
           88  READ-FAILED         VALUE -1.
      * What a function of the host in C answers: 0 if all went well.
       01  OUTCOME                 BINARY-LONG SIGNED.
       01  LINE-NUMBER             BINARY-DOUBLE UNSIGNED VALUE 0.
       01  LINE-COUNT              PIC 9(4) COMP-5.
       01  I                       PIC 9(4) COMP-5.
       01  REFUSED-WITH            BINARY-LONG SIGNED.
      * The labels of the programs that have entered.
       01  LABELS                  PIC X(256) VALUE LOW-VALUES.
       01  MESSAGE-SIZE            CONSTANT AS 1024.
       01  MESSAGE-TEXT            PIC X(MESSAGE-SIZE).
       01  MESSAGE-ROOM            BINARY-DOUBLE UNSIGNED
                                   VALUE MESSAGE-SIZE.
       01  MESSAGE-LEN             BINARY-LONG SIGNED.
       01  ORDER-LINE.
           05  FILLER              PIC X(6) VALUE "ORDER".
           05  ORDER-COLUMNS       PIC ZZ9 OCCURS 32 TIMES.
       01  ORDER-LINE-LEN          PIC 9(4) COMP-5.

       PROCEDURE DIVISION.
       MAIN-PART.
           CALL STATIC "session_begin" RETURNING OMITTED
           ACCEPT ARGUMENT-COUNT FROM ARGUMENT-NUMBER
           ACCEPT ARGUMENT FROM ARGUMENT-VALUE
           EVALUATE ARGUMENT-COUNT ALSO ARGUMENT
               WHEN 0 ALSO ANY
                   CALL STATIC "lock_board_empty" USING
                       BY REFERENCE LB-IMAGE
                       BY VALUE SIZE AUTO LB-IMAGE-LEN
                       RETURNING LB-ANSWER
                   PERFORM SERVE-INPUT
               WHEN 2 ALSO "--image"
                   PERFORM OPEN-IMAGE
                   PERFORM SERVE-INPUT
               WHEN 1 ALSO "--refusals"
                   CALL STATIC "list_refusals" RETURNING RETURN-CODE
               WHEN 1 ALSO "--version"
                   CALL STATIC "show_version" RETURNING RETURN-CODE
               WHEN OTHER
                   DISPLAY "usage: COUNTER "
                       "[--image FILE | --refusals | --version]"
                       UPON SYSERR
                   MOVE 2 TO RETURN-CODE
           END-EVALUATE
           STOP RUN.

      * The path ends with a byte 0, as C has it.
       OPEN-IMAGE.
           ACCEPT IMAGE-ARGUMENT FROM ARGUMENT-VALUE
           MOVE X"00" TO IMAGE-PATH
           IF IMAGE-ARGUMENT NOT = SPACES
               STRING FUNCTION TRIM (IMAGE-ARGUMENT TRAILING) X"00"
                   DELIMITED BY SIZE INTO IMAGE-PATH
           END-IF
           CALL STATIC "image_file_open" USING
               BY REFERENCE IMAGE-PATH BY REFERENCE LB-IMAGE
               RETURNING OUTCOME
           PERFORM STOP-IF-FAILED.

       SERVE-INPUT.
           OPEN OUTPUT JOURNAL-FILE
           PERFORM READ-BYTE
           PERFORM UNTIL END-OF-INPUT
               PERFORM READ-LINE
               PERFORM SERVE-LINE
               IF NOT END-OF-INPUT
                   PERFORM READ-BYTE
               END-IF
           END-PERFORM
           PERFORM WRITE-ORDER
           CLOSE JOURNAL-FILE.

      * The requests are read by bytes: a LINE SEQUENTIAL file would
      * lose carriage returns, and the board is to see every byte.
       READ-BYTE.
           CALL STATIC "read" USING BY VALUE SIZE 4 0
               BY REFERENCE NEXT-BYTE BY VALUE SIZE 8 1
               RETURNING BYTES-READ
           IF READ-FAILED
               DISPLAY "COUNTER: the requests cannot be read"
                   UPON SYSERR
               MOVE 1 TO RETURN-CODE
               STOP RUN
           END-IF.

      * A line up to its byte 10, which the last one may lack. One
      * over LB-LONGEST-REQUEST bytes is cut to LB-CUT-REQUEST.
       READ-LINE.
           ADD 1 TO LINE-NUMBER
           MOVE 0 TO LB-REQUEST-LEN
           PERFORM UNTIL END-OF-INPUT OR END-OF-LINE
               IF LB-REQUEST-LEN < LB-CUT-REQUEST
                   ADD 1 TO LB-REQUEST-LEN
                   MOVE NEXT-BYTE TO LB-REQUEST (LB-REQUEST-LEN:1)
               END-IF
               PERFORM READ-BYTE
           END-PERFORM.

       SERVE-LINE.
           MOVE 0 TO LB-PLACE
           CALL STATIC "lock_board_line" USING
               BY REFERENCE LB-IMAGE BY VALUE SIZE AUTO LB-IMAGE-LEN
               BY REFERENCE LB-REQUEST BY VALUE SIZE AUTO LB-REQUEST-LEN
               BY REFERENCE LB-JOURNAL BY VALUE SIZE AUTO LB-JOURNAL-LEN
               BY VALUE SIZE AUTO LB-PLACE
               RETURNING LB-ANSWER
           EVALUATE TRUE
               WHEN LB-UNSOUND
                   MOVE 1 TO LB-REFUSAL
                   PERFORM STOP-REFUSED
               WHEN LB-JOURNAL-FULL
                   MOVE 2 TO LB-REFUSAL
                   PERFORM STOP-REFUSED
               WHEN OTHER
                   PERFORM WRITE-JOURNAL
           END-EVALUATE.

      * The effect of the line is on the disk before its journal
      * lines are written.
       WRITE-JOURNAL.
           CALL STATIC "image_file_save" USING
               BY REFERENCE LB-IMAGE BY VALUE SIZE AUTO LINE-NUMBER
               RETURNING OUTCOME
           PERFORM STOP-IF-FAILED
           DIVIDE LB-ANSWER BY LB-JOURNAL-LINE-LEN GIVING LINE-COUNT
           PERFORM VARYING I FROM 1 BY 1 UNTIL I > LINE-COUNT
               WRITE JOURNAL-RECORD FROM LB-COLUMNS (I)
           END-PERFORM
           PERFORM FLUSH-JOURNAL
           CALL STATIC "explain_answer" USING
               BY REFERENCE MESSAGE-TEXT BY VALUE SIZE AUTO MESSAGE-ROOM
               BY VALUE SIZE AUTO LINE-NUMBER BY REFERENCE LB-IMAGE
               BY REFERENCE LABELS
               BY REFERENCE LB-REQUEST BY VALUE SIZE AUTO LB-REQUEST-LEN
               BY REFERENCE LB-JOURNAL
               RETURNING MESSAGE-LEN
           PERFORM SHOW-MESSAGE.

      * The ORDER line ends a session that has served all its input.
      * It is displayed, since a LINE SEQUENTIAL file would lose the
      * blank of an empty order.
       WRITE-ORDER.
           CALL STATIC "lock_board_order" USING
               BY REFERENCE LB-IMAGE BY VALUE SIZE AUTO LB-IMAGE-LEN
               BY REFERENCE LB-ORDER BY VALUE SIZE AUTO LB-ORDER-LEN
               RETURNING LB-ANSWER
           IF LB-ANSWER < 0
               COMPUTE LB-REFUSAL = 0 - LB-ANSWER
               PERFORM STOP-REFUSED
           END-IF
           PERFORM VARYING I FROM 1 BY 1 UNTIL I > LB-ANSWER
               MOVE LB-ORDER-PROGRAM (I) TO ORDER-COLUMNS (I)
           END-PERFORM
           COMPUTE ORDER-LINE-LEN = 6 + 3 * LB-ANSWER
           DISPLAY ORDER-LINE (1:ORDER-LINE-LEN)
           PERFORM FLUSH-JOURNAL.

      * Each answer is to be seen before the next request, and a
      * failed write is noticed here.
       FLUSH-JOURNAL.
           CALL STATIC "session_flush" USING
               BY VALUE SIZE AUTO LINE-NUMBER
               RETURNING OUTCOME
           PERFORM STOP-IF-FAILED.

      * The function that failed has said why.
       STOP-IF-FAILED.
           IF OUTCOME NOT = 0
               MOVE 1 TO RETURN-CODE
               STOP RUN
           END-IF.

       SHOW-MESSAGE.
           IF MESSAGE-LEN > 0
               DISPLAY MESSAGE-TEXT (1:MESSAGE-LEN) UPON SYSERR
           END-IF.

      * Refusals 1 and 2 have no journal line and end the session.
       STOP-REFUSED.
           MOVE LB-REFUSAL TO REFUSED-WITH
           CALL STATIC "refusal_text" USING
               BY REFERENCE MESSAGE-TEXT BY VALUE SIZE AUTO MESSAGE-ROOM
               BY VALUE SIZE AUTO LINE-NUMBER
               BY VALUE SIZE AUTO REFUSED-WITH
               RETURNING MESSAGE-LEN
           PERFORM SHOW-MESSAGE
           MOVE 1 TO RETURN-CODE
           STOP RUN.
