       IDENTIFICATION DIVISION.
       PROGRAM-ID. MYCLAIMS.
      * A claim list in COBOL: the ENTER line of a program that
      * writes files 2 and 5 and only reads file 1.
       DATA DIVISION.
       WORKING-STORAGE SECTION.
           COPY LOCKBRD.
       PROCEDURE DIVISION.
       MAIN-PART.
           SET LB-CALL-ENTER TO TRUE
           MOVE 2 TO LB-CALL-PROGRAM
           MOVE "ORDERS" TO LB-CALL-LABEL
           ADD LB-FILE-BIT (2) LB-FILE-BIT (5) GIVING LB-CALL-WRITABLE
           MOVE LB-FILE-BIT (1) TO LB-CALL-READABLE
           MOVE 0 TO LB-CALL-INQUIRABLE
           CALL STATIC "lock_board_write" USING
               BY VALUE SIZE AUTO LB-CALL-VERB
               BY VALUE SIZE AUTO LB-CALL-PROGRAM
               BY VALUE SIZE AUTO LB-CALL-FILE
               BY VALUE SIZE AUTO LB-CALL-RECORD
               BY REFERENCE LB-CALL-CLAIMS
               BY VALUE SIZE AUTO LB-CLAIMS-LEN
               BY REFERENCE LB-CALL-LABEL
               BY VALUE SIZE AUTO LB-LABEL-LEN
               BY REFERENCE LB-REQUEST
               BY VALUE SIZE AUTO LB-REQUEST-ROOM
               RETURNING LB-ANSWER
           IF LB-ANSWER < 0
               STOP RUN RETURNING 1
           END-IF
           MOVE LB-ANSWER TO LB-REQUEST-LEN
           DISPLAY LB-REQUEST (1:LB-REQUEST-LEN)
           STOP RUN.
