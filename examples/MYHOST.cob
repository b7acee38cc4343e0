       IDENTIFICATION DIVISION.
       PROGRAM-ID. MYHOST.
      * A whole host in COBOL: a program enters, and the journal of
      * that request is shown.
       DATA DIVISION.
       WORKING-STORAGE SECTION.
           COPY LOCKBRD.
       PROCEDURE DIVISION.
       MAIN-PART.
           CALL STATIC "lock_board_empty" USING
               BY REFERENCE LB-IMAGE BY VALUE SIZE AUTO LB-IMAGE-LEN
               RETURNING LB-ANSWER
           MOVE "ENTER   1STOCK     1  0  0  3" TO LB-REQUEST
           MOVE 29 TO LB-REQUEST-LEN
           CALL STATIC "lock_board_line" USING
               BY REFERENCE LB-IMAGE BY VALUE SIZE AUTO LB-IMAGE-LEN
               BY REFERENCE LB-REQUEST BY VALUE SIZE AUTO LB-REQUEST-LEN
               BY REFERENCE LB-JOURNAL BY VALUE SIZE AUTO LB-JOURNAL-LEN
               BY VALUE SIZE AUTO LB-PLACE
               RETURNING LB-ANSWER
           IF LB-UNSOUND OR LB-JOURNAL-FULL
               STOP RUN RETURNING 1
           END-IF
           DISPLAY LB-COLUMNS (1)
           STOP RUN.
