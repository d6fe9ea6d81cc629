; split.s: the console of a press, whose routine for each sheet calls others.
;
; SHEET counts a sheet, in the run and in the total. For the first sheet after midnight it calls SPLIT, which writes the part before
; midnight into the book under the day that ended and begins a second part; and SPLIT calls NEXT for the number of that part.
;
; Read-only memory from 0; working memory H'FFEF10, 4,096 bytes. The routine's entry is H'000100. SPLIT and NEXT lie below it.
; An ordinary sheet takes 110 states. The longest way takes 232: 120 of SHEET's own, its call among them, and 112 of SPLIT, of which
; NEXT takes 26. Between two sheets there are 160: SHEET alone would fit, and with what it calls it does not.

CLOCK:  .EQU    H'FFEF20        ; word: minutes since midnight, kept by the clock
LAST:   .EQU    H'FFEF22        ; word: the clock at the sheet before
RUN:    .EQU    H'FFEF24        ; word: sheets of this run
DAY:    .EQU    H'FFEF26        ; word: days since the console was set up
TOTAL:  .EQU    H'FFEF28        ; longword: sheets since the console was set up
BOOK:   .EQU    H'FFEF2C        ; longword: where the book's next line is
NUMBER: .EQU    H'FFEF30        ; byte: the run's number, two decimal digits
STACK:  .EQU    H'FFFF10        ; end of working memory

        .ORG    H'000000
        .DATA.L MAIN            ; reset vector

        .ORG    H'000040
NEXT:   MOV.B   R0L,@(2:16,ER1) ; the line's number, and the number after it
        ADD.B   #1,R0L
        DAA     R0L
        MOV.B   R0L,@NUMBER:16
        RTS

        .ORG    H'000080
SPLIT:  MOV.L   @BOOK:16,ER1    ; a line of the book is day, number, sheets
        MOV.W   @DAY:16,R0
        MOV.W   R0,@ER1
        INC.W   #1,R0
        MOV.W   R0,@DAY:16
        MOV.B   @NUMBER:16,R0L
        BSR     NEXT:8
        MOV.W   @RUN:16,R0
        MOV.W   R0,@(4:16,ER1)
        ADDS    #4,ER1
        ADDS    #2,ER1
        MOV.L   ER1,@BOOK:16
        SUB.W   R0,R0
        MOV.W   R0,@RUN:16      ; the second part has no sheet yet
        RTS

        .ORG    H'000100
SHEET:  PUSH.L  ER0
        PUSH.L  ER1
        MOV.W   @CLOCK:16,R0
        MOV.W   @LAST:16,R1
        MOV.W   R0,@LAST:16
        CMP.W   R1,R0           ; is it earlier than at the sheet before?
        BHS     COUNT:8         ; no: the same day
        JSR     @SPLIT:24       ; midnight
COUNT:  MOV.W   @RUN:16,R0
        INC.W   #1,R0
        MOV.W   R0,@RUN:16
        MOV.L   @TOTAL:16,ER0
        INC.L   #1,ER0
        MOV.L   ER0,@TOTAL:16
        POP.L   ER1
        POP.L   ER0
        RTS

        .ORG    H'000200
MAIN:   MOV.L   #STACK,ER7
AGAIN:  JSR     @SHEET:24
        BRA     AGAIN:8
        .END
