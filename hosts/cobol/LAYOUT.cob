       IDENTIFICATION DIVISION.
       PROGRAM-ID. LAYOUT.
      * Tests the copybook: requests are made with its items, and
      * the board's answers, journal and image are read with them.
       DATA DIVISION.
       WORKING-STORAGE SECTION.
           COPY LOCKBRD.
       01  TESTED                  PIC X(40).
       01  LINE-LEN                PIC 9(4) COMP-5.
       01  I                       PIC 9(4) COMP-5.
       01  BIT-OF-64               PIC 9(20).
       01  EXPECTED-LINE           PIC X(40).
       01  EXPECTED-LEN            PIC 9(4) COMP-5.
       01  EXPECTED-REACH          PIC 9(10).
       01  JOURNAL-RECORD          PIC 9(5).

       PROCEDURE DIVISION.
       MAIN-PART.
           PERFORM TEST-LENGTHS
           PERFORM TEST-ENTER
           PERFORM TEST-OPEN
           PERFORM TEST-FAVOURED
           PERFORM TEST-ORDER
           PERFORM TEST-BITS
           PERFORM TEST-WRITE
           PERFORM TEST-WRITE-REFUSALS
           PERFORM TEST-CANCEL
           PERFORM TEST-REACH
           PERFORM TEST-LOOP
           PERFORM TEST-IS-LOOP
           PERFORM TEST-PASSED
           PERFORM TEST-INQUIRY
           PERFORM TEST-RECORD
           PERFORM TEST-RETURN
           PERFORM TEST-REFUSALS
           STOP RUN.

       TEST-LENGTHS.
           MOVE "lengths of the records" TO TESTED
           MOVE LENGTH OF LB-REQUEST TO LB-REQUEST-LEN
           MOVE LENGTH OF LB-JOURNAL-LINE (1) TO LINE-LEN
           IF LENGTH OF LB-IMAGE NOT = LB-IMAGE-LEN
                   OR LB-REQUEST-LEN NOT = LB-CUT-REQUEST
                   OR LENGTH OF LB-JOURNAL NOT = LB-JOURNAL-LEN
                   OR LINE-LEN NOT = LB-JOURNAL-LINE-LEN
               PERFORM FAIL
           END-IF
           PERFORM ASK-EMPTY.

      * Program 1 writes 1, 2, 3; 2 writes 1, 2; 4 only reads 32.
       TEST-ENTER.
           MOVE "ENTER" TO TESTED
           SET LB-VERB-ENTER TO TRUE
           MOVE 1 TO LB-REQ-PROGRAM
           MOVE "STOCK" TO LB-LABEL
           MOVE 3 TO LB-WRITE-COUNT
           MOVE 0 TO LB-READ-COUNT
           MOVE 0 TO LB-INQUIRY-COUNT
           MOVE 1 TO LB-CLAIMED-FILE (1)
           MOVE 2 TO LB-CLAIMED-FILE (2)
           MOVE 3 TO LB-CLAIMED-FILE (3)
           MOVE 35 TO LB-REQUEST-LEN
           PERFORM ASK
           IF NOT LB-ADMIT (1) OR NOT LB-RUNNING (1)
                   OR LB-WRITE-CLAIM (1) NOT = 7
               PERFORM FAIL
           END-IF
           MOVE 2 TO LB-REQ-PROGRAM
           MOVE 2 TO LB-WRITE-COUNT
           MOVE 32 TO LB-REQUEST-LEN
           PERFORM ASK
           MOVE 4 TO LB-REQ-PROGRAM
           MOVE 0 TO LB-WRITE-COUNT
           MOVE 1 TO LB-READ-COUNT
           MOVE 32 TO LB-CLAIMED-FILE (1)
           MOVE 29 TO LB-REQUEST-LEN
           PERFORM ASK
           IF NOT LB-ADMIT (1) OR LB-READ-CLAIM (4) NOT = 2147483648
               PERFORM FAIL
           END-IF.

       TEST-OPEN.
           MOVE "OPEN" TO TESTED
           SET LB-VERB-OPEN TO TRUE
           MOVE 12 TO LB-REQUEST-LEN
           MOVE 4 TO LB-REQ-PROGRAM
           MOVE 32 TO LB-REQ-FILE
           PERFORM ASK
           MOVE 1 TO LB-REQ-PROGRAM
           MOVE 1 TO LB-REQ-FILE
           PERFORM ASK
           IF NOT LB-GIVEN (1) OR LB-WRITE-OPEN (1) NOT = 1
                   OR LB-READ-OPEN (4) NOT = 2147483648
               PERFORM FAIL
           END-IF
           MOVE 3 TO LB-REQ-FILE
           PERFORM ASK
           MOVE 2 TO LB-REQ-PROGRAM
           MOVE 2 TO LB-REQ-FILE
           PERFORM ASK
           IF NOT LB-UNSAFE (1) OR NOT LB-WAITING (2)
                   OR LB-AWAITED-FILE (2) NOT = 2
                   OR LB-WAITING-LINE (1) NOT = 2
               PERFORM FAIL
           END-IF.

      * The close favours program 2; 3 is held; the leave counts.
       TEST-FAVOURED.
           MOVE "FAVOUR" TO TESTED
           SET LB-VERB-CLOSE TO TRUE
           MOVE 1 TO LB-REQ-PROGRAM
           MOVE 3 TO LB-REQ-FILE
           PERFORM ASK
           IF NOT LB-DONE (1) OR NOT LB-FAVOUR (2)
                   OR LB-FAVOURED NOT = 2 OR LB-AT-FAVOURING NOT = 3
               PERFORM FAIL
           END-IF
           SET LB-VERB-ENTER TO TRUE
           MOVE 3 TO LB-REQ-PROGRAM
           MOVE "LISTS" TO LB-LABEL
           MOVE 0 TO LB-WRITE-COUNT
           MOVE 0 TO LB-READ-COUNT
           MOVE 0 TO LB-INQUIRY-COUNT
           MOVE 26 TO LB-REQUEST-LEN
           PERFORM ASK
           IF NOT LB-HELD-AT-ENTRY (1) OR NOT LB-HELD (3)
                   OR LB-ENTRY-LINE (1) NOT = 3
               PERFORM FAIL
           END-IF
           SET LB-VERB-LEAVE TO TRUE
           MOVE 4 TO LB-REQ-PROGRAM
           MOVE 9 TO LB-REQUEST-LEN
           PERFORM ASK
           IF LB-ANSWER NOT = 21 OR LB-LEAVES NOT = 1
               PERFORM FAIL
           END-IF.

      * 1 and 2 are admitted, 1 holds back 2; 3 is held, 4 has left.
       TEST-ORDER.
           MOVE "the order" TO TESTED
           IF LENGTH OF LB-ORDER NOT = LB-ORDER-LEN
               PERFORM FAIL
           END-IF
           MOVE ALL X"FF" TO LB-ORDER
           PERFORM ASK-ORDER
           IF LB-ANSWER NOT = 2 OR LB-ORDER-PROGRAM (1) NOT = 1
                   OR LB-ORDER-PROGRAM (2) NOT = 2
                   OR LB-ORDER-PROGRAM (3) NOT = 255
               PERFORM FAIL
           END-IF
           MOVE ALL X"FF" TO LB-ORDER
           MOVE 1 TO LB-ORDER-LEN
           PERFORM ASK-ORDER
           IF NOT LB-BUFFER-SHORT OR LB-ORDER-PROGRAM (1) NOT = 255
               PERFORM FAIL
           END-IF
           COMPUTE LB-REFUSAL = 0 - LB-ANSWER
           IF NOT LB-SHORT-BUFFER
               PERFORM FAIL
           END-IF
           MOVE 2 TO LB-LEAVES
           PERFORM ASK-ORDER
           IF NOT LB-UNSOUND OR LB-ORDER-PROGRAM (1) NOT = 255
               PERFORM FAIL
           END-IF
           MOVE 1 TO LB-LEAVES
           MOVE 2 TO LB-ORDER-LEN
           PERFORM ASK-ORDER
           IF LB-ANSWER NOT = 2
               PERFORM FAIL
           END-IF.

      * Each file's bit is twice the one before.
       TEST-BITS.
           MOVE "bits of the files" TO TESTED
           IF LB-FILE-BIT (1) NOT = 1
               PERFORM FAIL
           END-IF
           PERFORM VARYING I FROM 2 BY 1 UNTIL I > 64
               IF LB-FILE-BIT (I) / 2 NOT = LB-FILE-BIT (I - 1)
                   PERFORM FAIL
               END-IF
           END-PERFORM
           MOVE LB-FILE-BIT (64) TO BIT-OF-64
           IF BIT-OF-64 NOT = 9223372036854775808
               PERFORM FAIL
           END-IF.

      * Lines are written as 01's columns have them, and the bytes
      * after them stay.
       TEST-WRITE.
           MOVE "written lines" TO TESTED
           IF LENGTH OF LB-REQUEST NOT = LB-REQUEST-ROOM
                   OR LENGTH OF LB-CALL-CLAIMS NOT = LB-CLAIMS-LEN
                   OR LENGTH OF LB-CALL-LABEL NOT = LB-LABEL-LEN
               PERFORM FAIL
           END-IF
           SET LB-CALL-ENTER TO TRUE
           MOVE 12 TO LB-CALL-PROGRAM
           MOVE "ORDERS" TO LB-CALL-LABEL
           ADD LB-FILE-BIT (2) LB-FILE-BIT (64) GIVING LB-CALL-WRITABLE
           MOVE LB-FILE-BIT (1) TO LB-CALL-READABLE
           MOVE LB-FILE-BIT (33) TO LB-CALL-INQUIRABLE
           MOVE "ENTER  12ORDERS    2  1  1  2 64  1 33"
               TO EXPECTED-LINE
           MOVE 38 TO EXPECTED-LEN
           PERFORM WRITE-AND-COMPARE
           SET LB-CALL-OPEN TO TRUE
           MOVE 64 TO LB-CALL-FILE
           MOVE "OPEN   12 64" TO EXPECTED-LINE
           MOVE 12 TO EXPECTED-LEN
           PERFORM WRITE-AND-COMPARE
           SET LB-CALL-CLOSE TO TRUE
           MOVE "CLOSE  12 64" TO EXPECTED-LINE
           PERFORM WRITE-AND-COMPARE
           SET LB-CALL-DROP TO TRUE
           MOVE "DROP   12 64" TO EXPECTED-LINE
           PERFORM WRITE-AND-COMPARE
           SET LB-CALL-FETCH TO TRUE
           MOVE LB-RECORDS TO LB-CALL-RECORD
           MOVE "FETCH  12 6465535" TO EXPECTED-LINE
           MOVE 17 TO EXPECTED-LEN
           PERFORM WRITE-AND-COMPARE
           MOVE 1 TO LB-CALL-RECORD
           MOVE "FETCH  12 64    1" TO EXPECTED-LINE
           PERFORM WRITE-AND-COMPARE
           SET LB-CALL-LEAVE TO TRUE
           MOVE "LEAVE  12" TO EXPECTED-LINE
           MOVE 9 TO EXPECTED-LEN
           PERFORM WRITE-AND-COMPARE
           SET LB-CALL-RETURN TO TRUE
           MOVE "RETURN 12" TO EXPECTED-LINE
           PERFORM WRITE-AND-COMPARE
           SET LB-CALL-CANCEL TO TRUE
           MOVE "CANCEL 12" TO EXPECTED-LINE
           PERFORM WRITE-AND-COMPARE.

      * The call is a cancel of program 12.
       TEST-WRITE-REFUSALS.
           MOVE "refusals of written lines" TO TESTED
           MOVE 8 TO LB-REQUEST-ROOM
           PERFORM ASK-WRITE
           IF NOT LB-BUFFER-SHORT
               PERFORM FAIL
           END-IF
           MOVE LB-CUT-REQUEST TO LB-REQUEST-ROOM
           MOVE 33 TO LB-CALL-PROGRAM
           PERFORM ASK-WRITE
           IF NOT LB-WRITE-OUT-OF-RANGE
               PERFORM FAIL
           END-IF
           MOVE 32 TO LB-CALL-PROGRAM
           MOVE LOW-VALUES TO LB-CALL-LABEL
           SET LB-CALL-ENTER TO TRUE
           PERFORM ASK-WRITE
           IF NOT LB-WRITE-BAD-LABEL
               PERFORM FAIL
           END-IF
           MOVE 23 TO LB-CLAIMS-LEN
           PERFORM ASK-WRITE
           IF NOT LB-WRITE-OUT-OF-RANGE
               PERFORM FAIL
           END-IF
           MOVE 24 TO LB-CLAIMS-LEN
           PERFORM TEST-WRITE-RECORD
           MOVE 9 TO LB-CALL-VERB
           PERFORM ASK-WRITE
           IF NOT LB-WRITE-NO-VERB
               PERFORM FAIL
           END-IF
           COMPUTE LB-REFUSAL = 0 - LB-ANSWER
           IF NOT LB-NO-VERB OR LB-REQUEST NOT = ALL X"FF"
               PERFORM FAIL
           END-IF.

      * A FETCH of record 0 and of two whose lower halves are in
      * range: no half of a number is lost.
       TEST-WRITE-RECORD.
           SET LB-CALL-FETCH TO TRUE
           MOVE 0 TO LB-CALL-RECORD
           PERFORM FAIL-UNLESS-BAD-RECORD
           MOVE 65537 TO LB-CALL-RECORD
           PERFORM FAIL-UNLESS-BAD-RECORD
           MOVE 4294967297 TO LB-CALL-RECORD
           PERFORM FAIL-UNLESS-BAD-RECORD.

       FAIL-UNLESS-BAD-RECORD.
           PERFORM ASK-WRITE
           COMPUTE LB-REFUSAL = 0 - LB-ANSWER
           IF NOT LB-WRITE-BAD-RECORD OR NOT LB-BAD-RECORD
                   OR LB-REQUEST NOT = ALL X"FF"
               PERFORM FAIL
           END-IF.

      * 2 waits and is favoured, 3 is held, 1 runs. The line for 2 is
      * a written one, that for 1 is made with the items.
       TEST-CANCEL.
           MOVE "CANCEL" TO TESTED
           SET LB-CALL-CANCEL TO TRUE
           MOVE 2 TO LB-CALL-PROGRAM
           PERFORM ASK-CALL
           IF LB-ANSWER NOT = 42
                   OR LB-COLUMNS (1) NOT = "DONE    2  0  0    0"
                   OR LB-COLUMNS (2) NOT = "ADMIT   3  0  0    0"
                   OR NOT LB-ABSENT (2) OR LB-WRITE-CLAIM (2) NOT = 0
                   OR NOT LB-RUNNING (3) OR LB-FAVOURED NOT = 0
                   OR LB-AT-FAVOURING NOT = 0 OR LB-LEAVES NOT = 0
               PERFORM FAIL
           END-IF
           SET LB-VERB-CANCEL TO TRUE
           MOVE 1 TO LB-REQ-PROGRAM
           MOVE 9 TO LB-REQUEST-LEN
           PERFORM ASK
           MOVE LB-JNL-REFUSAL (1) TO LB-REFUSAL
           IF NOT LB-REFUSE (1) OR NOT LB-IS-RUNNING
               PERFORM FAIL
           END-IF.

      * On an empty board 32 writes 1, which 2 only reads, and 2
      * writes 2, which 31 only reads. 31 asks for 64, which 32 only
      * reads: then 31 would hold back 32. So 31 waits; 32 reaches 31
      * over 2.
       TEST-REACH.
           MOVE "the matrix" TO TESTED
           IF LENGTH OF LB-REACH NOT = LB-REACH-LEN
               PERFORM FAIL
           END-IF
           PERFORM ASK-EMPTY
           MOVE "REACH" TO LB-CALL-LABEL
           MOVE 0 TO LB-CALL-INQUIRABLE
           MOVE 32 TO LB-CALL-PROGRAM
           MOVE LB-FILE-BIT (1) TO LB-CALL-WRITABLE
           MOVE LB-FILE-BIT (64) TO LB-CALL-READABLE
           MOVE 1 TO LB-CALL-FILE
           PERFORM ENTER-AND-OPEN
           MOVE 2 TO LB-CALL-PROGRAM
           MOVE LB-FILE-BIT (2) TO LB-CALL-WRITABLE
           MOVE LB-FILE-BIT (1) TO LB-CALL-READABLE
           MOVE 2 TO LB-CALL-FILE
           PERFORM ENTER-AND-OPEN
           MOVE 31 TO LB-CALL-PROGRAM
           MOVE LB-FILE-BIT (64) TO LB-CALL-WRITABLE
           MOVE LB-FILE-BIT (2) TO LB-CALL-READABLE
           MOVE 64 TO LB-CALL-FILE
           PERFORM ENTER-AND-OPEN
           IF NOT LB-UNSAFE (1)
               PERFORM FAIL
           END-IF
           PERFORM ASK-REACH
           IF LB-ANSWER NOT = 128
               PERFORM FAIL
           END-IF
           PERFORM VARYING I FROM 1 BY 1 UNTIL I > 32
               EVALUATE I
                   WHEN 2  MOVE LB-FILE-BIT (32) TO EXPECTED-REACH
                   WHEN 31 ADD LB-FILE-BIT (2) LB-FILE-BIT (32)
                               GIVING EXPECTED-REACH
                   WHEN OTHER MOVE 0 TO EXPECTED-REACH
               END-EVALUATE
               IF LB-REACHED-BY (I) NOT = EXPECTED-REACH
                   PERFORM FAIL
               END-IF
           END-PERFORM
           PERFORM TEST-REACH-BITS
           MOVE 127 TO LB-REACH-LEN
           PERFORM ASK-REACH
           IF NOT LB-BUFFER-SHORT
               PERFORM FAIL
           END-IF
           MOVE 128 TO LB-REACH-LEN.

      * Who reaches 31, as the copybook says: 2 and 32.
       TEST-REACH-BITS.
           MOVE 0 TO EXPECTED-REACH
           PERFORM VARYING I FROM 1 BY 1 UNTIL I > 32
               IF FUNCTION MOD (FUNCTION INTEGER
                       (LB-REACHED-BY (31) / LB-FILE-BIT (I)) 2) = 1
                   COMPUTE EXPECTED-REACH = 100 * EXPECTED-REACH + I
               END-IF
           END-PERFORM
           IF EXPECTED-REACH NOT = 232
               PERFORM FAIL
           END-IF.

      * 31 holds back 32, 32 holds back 2, and 2 holds back 31. With
      * which it begins is free.
       TEST-LOOP.
           MOVE "a loop" TO TESTED
           IF LENGTH OF LB-LOOP NOT = LB-LOOP-ROOM
               PERFORM FAIL
           END-IF
           PERFORM ASK-LOOP
           IF LB-ANSWER NOT = 3 OR LB-LOOP-PROGRAM (4) NOT = 255
                   OR LB-LOOP (1:3) NOT = X"1F2002" AND X"20021F"
                                      AND X"021F20"
               PERFORM FAIL
           END-IF
           MOVE 31 TO LB-LOOP-ROOM
           PERFORM ASK-LOOP
           IF NOT LB-BUFFER-SHORT OR LB-LOOP-PROGRAM (1) NOT = 255
               PERFORM FAIL
           END-IF
           MOVE 33 TO LB-CALL-PROGRAM
           PERFORM ASK-LOOP
           IF NOT LB-LOOP-OUT-OF-RANGE
               PERFORM FAIL
           END-IF
           MOVE 32 TO LB-LOOP-ROOM
           MOVE 2 TO LB-CALL-PROGRAM
           PERFORM ASK-LOOP
           IF LB-ANSWER NOT = 0 OR LB-LOOP-PROGRAM (1) NOT = 255
               PERFORM FAIL
           END-IF.

       TEST-IS-LOOP.
           MOVE "a list that is a loop" TO TESTED
           MOVE 31 TO LB-CALL-PROGRAM
           MOVE 64 TO LB-CALL-FILE
           MOVE X"1F2002" TO LB-LOOP
           MOVE 3 TO LB-LOOP-LEN
           PERFORM ASK-IS-LOOP
           IF LB-ANSWER NOT = 1
               PERFORM FAIL
           END-IF
           MOVE 2 TO LB-LOOP-LEN
           PERFORM ASK-IS-LOOP
           IF LB-ANSWER NOT = 0
               PERFORM FAIL
           END-IF
           MOVE 3 TO LB-LOOP-LEN
           MOVE 2 TO LB-CALL-FILE
           PERFORM ASK-IS-LOOP
           IF LB-ANSWER NOT = 0
               PERFORM FAIL
           END-IF.

      * On an empty board 1 waits for the file that 2 writes. Eight
      * others are admitted after it; the next one is held.
       TEST-PASSED.
           MOVE "counts" TO TESTED
           PERFORM ASK-EMPTY
           MOVE "PASSED" TO LB-CALL-LABEL
           MOVE LB-FILE-BIT (1) TO LB-CALL-WRITABLE
           MOVE 0 TO LB-CALL-READABLE
           MOVE 1 TO LB-CALL-FILE
           PERFORM VARYING I FROM 2 BY -1 UNTIL I < 1
               MOVE I TO LB-CALL-PROGRAM
               PERFORM ENTER-AND-OPEN
           END-PERFORM
           IF NOT LB-WAIT (1) OR LB-PASSED (1) NOT = 0
               PERFORM FAIL
           END-IF
           SET LB-CALL-ENTER TO TRUE
           PERFORM VARYING I FROM 1 BY 1 UNTIL I > LB-MOST-PASSED
               COMPUTE LB-CALL-PROGRAM = I + 2
               PERFORM ASK-CALL
               IF NOT LB-ADMIT (1) OR LB-PASSED (1) NOT = I
                   PERFORM FAIL
               END-IF
           END-PERFORM
           MOVE 32 TO LB-CALL-PROGRAM
           PERFORM ASK-CALL
           IF LB-ANSWER NOT = 42
                   OR LB-COLUMNS (1) NOT = "HELD   32  0  0    0"
                   OR LB-COLUMNS (2) NOT = "FAVOUR  1  1  0    0"
                   OR LB-FAVOURED NOT = 1 OR LB-AT-FAVOURING NOT = 10
                   OR LB-PASSED (1) NOT = 8 OR LB-PASSED (32) NOT = 0
               PERFORM FAIL
           END-IF
           PERFORM TEST-PASSED-ENDS.

      * A count is 0 again when the wait ends. One above 8, or of a
      * program that does not wait, is not sound.
       TEST-PASSED-ENDS.
           MOVE 9 TO LB-PASSED (1)
           PERFORM ASK-ORDER
           IF NOT LB-UNSOUND
               PERFORM FAIL
           END-IF
           MOVE 8 TO LB-PASSED (1)
           MOVE 1 TO LB-PASSED (32)
           PERFORM ASK-ORDER
           IF NOT LB-UNSOUND
               PERFORM FAIL
           END-IF
           MOVE 0 TO LB-PASSED (32)
           MOVE 2 TO LB-CALL-PROGRAM
           SET LB-CALL-LEAVE TO TRUE
           PERFORM ASK-CALL
           IF LB-ANSWER NOT = 63
                   OR LB-COLUMNS (2) NOT = "GIVEN   1  1  0    0"
                   OR LB-COLUMNS (3) NOT = "ADMIT  32  0  0    0"
                   OR LB-PASSED (1) NOT = 0
               PERFORM FAIL
           END-IF.

      * On an empty board 1 and 32 inquire into 64, at the same time.
       TEST-INQUIRY.
           MOVE "inquiry" TO TESTED
           PERFORM ASK-EMPTY
           SET LB-VERB-ENTER TO TRUE
           MOVE 1 TO LB-REQ-PROGRAM
           MOVE "CLERK" TO LB-LABEL
           MOVE 0 TO LB-WRITE-COUNT
           MOVE 0 TO LB-READ-COUNT
           MOVE 1 TO LB-INQUIRY-COUNT
           MOVE 64 TO LB-CLAIMED-FILE (1)
           MOVE 29 TO LB-REQUEST-LEN
           PERFORM ASK
           IF NOT LB-ADMIT (1) OR LB-INQUIRY-OPEN (1) NOT = 0
                   OR LB-INQUIRY-CLAIM (1) NOT = LB-FILE-BIT (64)
               PERFORM FAIL
           END-IF
           MOVE "CLERK" TO LB-CALL-LABEL
           MOVE 0 TO LB-CALL-WRITABLE
           MOVE LB-FILE-BIT (64) TO LB-CALL-INQUIRABLE
           MOVE 32 TO LB-CALL-PROGRAM
           MOVE 64 TO LB-CALL-FILE
           PERFORM ENTER-AND-OPEN
           MOVE 1 TO LB-CALL-PROGRAM
           PERFORM ASK-CALL
           IF NOT LB-GIVEN (1)
                   OR LB-INQUIRY-CLAIM (32) NOT = LB-FILE-BIT (64)
                   OR LB-INQUIRY-OPEN (1) NOT = LB-FILE-BIT (64)
                   OR LB-INQUIRY-OPEN (32) NOT = LB-FILE-BIT (64)
                   OR LB-INQUIRY-CLAIM (2) NOT = 0
               PERFORM FAIL
           END-IF.

      * 32 has the highest record of 64, and 1 waits for it. The line
      * for 32 is a written one, that for 1 is made with the items.
       TEST-RECORD.
           MOVE "FETCH" TO TESTED
           SET LB-CALL-FETCH TO TRUE
           MOVE 32 TO LB-CALL-PROGRAM
           MOVE LB-RECORDS TO LB-CALL-RECORD
           PERFORM ASK-CALL
           IF LB-COLUMNS (1) NOT = "GIVEN  32 64  065535"
                   OR NOT LB-RUNNING (32)
                   OR LB-RECORD-IN-USE (32) NOT = 65535
                   OR LB-AWAITED-RECORD (32) NOT = 0
                   OR LB-AWAITED-FILE (32) NOT = 64
               PERFORM FAIL
           END-IF
           SET LB-VERB-FETCH TO TRUE
           MOVE 1 TO LB-REQ-PROGRAM
           MOVE 64 TO LB-REQ-FILE
           MOVE 65535 TO LB-REQ-RECORD
           MOVE 17 TO LB-REQUEST-LEN
           PERFORM ASK
           MOVE LB-JNL-RECORD (1) TO JOURNAL-RECORD
           IF NOT LB-WAIT (1) OR JOURNAL-RECORD NOT = 65535
                   OR NOT LB-WAITING (1)
                   OR LB-RECORD-IN-USE (1) NOT = 0
                   OR LB-AWAITED-RECORD (1) NOT = 65535
                   OR LB-AWAITED-FILE (1) NOT = 64
               PERFORM FAIL
           END-IF
           MOVE 1 TO LB-CALL-PROGRAM
           PERFORM ASK-LOOP
           IF LB-ANSWER NOT = 0 OR LB-LOOP-PROGRAM (1) NOT = 255
               PERFORM FAIL
           END-IF
           MOVE 65534 TO LB-AWAITED-RECORD (1)
           PERFORM ASK-ORDER
           IF NOT LB-UNSOUND
               PERFORM FAIL
           END-IF
           MOVE 65535 TO LB-AWAITED-RECORD (1).

      * The record goes from 32 to 1, which may then only return it
      * or leave; 32 has none to return.
       TEST-RETURN.
           MOVE "RETURN" TO TESTED
           SET LB-VERB-RETURN TO TRUE
           MOVE 32 TO LB-REQ-PROGRAM
           MOVE 9 TO LB-REQUEST-LEN
           PERFORM ASK
           IF LB-ANSWER NOT = 42
                   OR LB-COLUMNS (1) NOT = "DONE   32  0  0    0"
                   OR LB-COLUMNS (2) NOT = "GIVEN   1 64  065535"
                   OR LB-RECORD-IN-USE (32) NOT = 0
                   OR LB-AWAITED-FILE (32) NOT = 0
                   OR LB-RECORD-IN-USE (1) NOT = 65535
                   OR LB-AWAITED-RECORD (1) NOT = 0
                   OR NOT LB-RUNNING (1) OR LB-WAITING-LINE (1) NOT = 0
               PERFORM FAIL
           END-IF
           PERFORM ASK
           MOVE LB-JNL-REFUSAL (1) TO LB-REFUSAL
           IF NOT LB-REFUSE (1) OR NOT LB-NO-RECORD
               PERFORM FAIL
           END-IF
           SET LB-CALL-CLOSE TO TRUE
           PERFORM ASK-CALL
           MOVE LB-JNL-REFUSAL (1) TO LB-REFUSAL
           IF NOT LB-REFUSE (1) OR NOT LB-HAS-RECORD
               PERFORM FAIL
           END-IF.

       TEST-REFUSALS.
           MOVE "refusals" TO TESTED
           SET LB-VERB-DROP TO TRUE
           MOVE 32 TO LB-REQ-PROGRAM
           MOVE 32 TO LB-REQ-FILE
           MOVE 12 TO LB-REQUEST-LEN
           PERFORM ASK
           MOVE LB-JNL-REFUSAL (1) TO LB-REFUSAL
           IF NOT LB-REFUSE (1) OR NOT LB-NOT-CLAIMED
               PERFORM FAIL
           END-IF
           SUBTRACT 1 FROM LB-JOURNAL-LEN
           PERFORM ASK
           IF NOT LB-JOURNAL-FULL
               PERFORM FAIL
           END-IF
           ADD 1 TO LB-JOURNAL-LEN
           SUBTRACT 1 FROM LB-IMAGE-LEN
           PERFORM ASK
           IF NOT LB-UNSOUND
               PERFORM FAIL
           END-IF
      *    Its lower half is right: no half of a number is lost.
           ADD 4294967297 TO LB-IMAGE-LEN
           PERFORM ASK
           IF NOT LB-UNSOUND
               PERFORM FAIL
           END-IF.

       ASK-EMPTY.
           CALL STATIC "lock_board_empty" USING
               BY REFERENCE LB-IMAGE BY VALUE SIZE AUTO LB-IMAGE-LEN
               RETURNING LB-ANSWER
           IF LB-ANSWER NOT = 0 OR NOT LB-ABSENT (32)
               PERFORM FAIL
           END-IF.

       ASK.
           CALL STATIC "lock_board_line" USING
               BY REFERENCE LB-IMAGE BY VALUE SIZE AUTO LB-IMAGE-LEN
               BY REFERENCE LB-REQUEST BY VALUE SIZE AUTO LB-REQUEST-LEN
               BY REFERENCE LB-JOURNAL BY VALUE SIZE AUTO LB-JOURNAL-LEN
               BY VALUE SIZE AUTO LB-PLACE
               RETURNING LB-ANSWER.

       ASK-ORDER.
           CALL STATIC "lock_board_order" USING
               BY REFERENCE LB-IMAGE BY VALUE SIZE AUTO LB-IMAGE-LEN
               BY REFERENCE LB-ORDER BY VALUE SIZE AUTO LB-ORDER-LEN
               RETURNING LB-ANSWER.

       ASK-REACH.
           CALL STATIC "lock_board_reach" USING
               BY REFERENCE LB-IMAGE BY VALUE SIZE AUTO LB-IMAGE-LEN
               BY REFERENCE LB-REACH BY VALUE SIZE AUTO LB-REACH-LEN
               RETURNING LB-ANSWER.

       ASK-LOOP.
           MOVE ALL X"FF" TO LB-LOOP
           CALL STATIC "lock_board_loop" USING
               BY REFERENCE LB-IMAGE BY VALUE SIZE AUTO LB-IMAGE-LEN
               BY VALUE SIZE AUTO LB-CALL-PROGRAM
               BY REFERENCE LB-LOOP BY VALUE SIZE AUTO LB-LOOP-ROOM
               RETURNING LB-ANSWER.

       ASK-IS-LOOP.
           CALL STATIC "lock_board_is_loop" USING
               BY REFERENCE LB-IMAGE BY VALUE SIZE AUTO LB-IMAGE-LEN
               BY VALUE SIZE AUTO LB-CALL-PROGRAM
               BY VALUE SIZE AUTO LB-CALL-FILE
               BY REFERENCE LB-LOOP BY VALUE SIZE AUTO LB-LOOP-LEN
               RETURNING LB-ANSWER.

       ASK-WRITE.
           MOVE ALL X"FF" TO LB-REQUEST
           CALL STATIC "lock_board_write" USING
               BY VALUE SIZE AUTO LB-CALL-VERB
               BY VALUE SIZE AUTO LB-CALL-PROGRAM
               BY VALUE SIZE AUTO LB-CALL-FILE
               BY VALUE SIZE AUTO LB-CALL-RECORD
               BY REFERENCE LB-CALL-CLAIMS
               BY VALUE SIZE AUTO LB-CLAIMS-LEN
               BY REFERENCE LB-CALL-LABEL
               BY VALUE SIZE AUTO LB-LABEL-LEN
               BY REFERENCE LB-REQUEST
               BY VALUE SIZE AUTO LB-REQUEST-ROOM
               RETURNING LB-ANSWER.

      * The line is written from LB-CALL and served.
       ASK-CALL.
           PERFORM ASK-WRITE
           MOVE LB-ANSWER TO LB-REQUEST-LEN
           PERFORM ASK.

      * The program of LB-CALL enters with its claims and opens the
      * file.
       ENTER-AND-OPEN.
           SET LB-CALL-ENTER TO TRUE
           PERFORM ASK-CALL
           SET LB-CALL-OPEN TO TRUE
           PERFORM ASK-CALL.

       WRITE-AND-COMPARE.
           PERFORM ASK-WRITE
           IF LB-ANSWER NOT = EXPECTED-LEN
                   OR LB-REQUEST (1:EXPECTED-LEN) NOT =
                      EXPECTED-LINE (1:EXPECTED-LEN)
                   OR LB-REQUEST (EXPECTED-LEN + 1:) NOT = ALL X"FF"
               PERFORM FAIL
           END-IF.

       FAIL.
           DISPLAY "LAYOUT: failed: " TESTED UPON SYSERR
           DISPLAY LB-COLUMNS (1) UPON SYSERR
           MOVE 1 TO RETURN-CODE
           STOP RUN.
