; decimal.s: a counter of four decimal digits in R0, up 1,000 times with DAA and down 999 times with DAS.
; It starts at 0 and ends at DONE (H'000024) with R0 = H'0001. It needs no working memory.

        .ORG    H'000000
        SUB.W   R0,R0
        MOV.B   #1,R2L
        MOV.W   #1000,R1
UP:     ADD.B   #1,R0L
        DAA     R0L
        ADDX    #0,R0H
        DAA     R0H
        DEC.W   #1,R1
        BNE     UP:8
        MOV.W   #999,R1
DOWN:   SUB.B   R2L,R0L
        DAS     R0L
        SUBX    #0,R0H
        DAS     R0H
        DEC.W   #1,R1
        BNE     DOWN:8
DONE:   BRA     DONE:8
        .END
