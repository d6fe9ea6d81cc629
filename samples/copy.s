; copy.s: copies a table of 32 words into working memory, 64 times, one copy behind the other.
; Working memory H'FFEF10, 4,096 bytes: all of it is written. It starts at 0 and ends at DONE (H'000022).

MEMORY: .EQU    H'FFEF10

        .ORG    H'000000
        MOV.L   #MEMORY,ER2
        MOV.W   #64,R4
BLOCK:  MOV.L   #TABLE,ER1
        MOV.W   #32,R3
WORD:   MOV.W   @ER1+,R0
        MOV.W   R0,@ER2
        ADDS    #2,ER2
        DEC.W   #1,R3
        BNE     WORD:8
        DEC.W   #1,R4
        BNE     BLOCK:8
DONE:   BRA     DONE:8

        .ORG    H'000040
TABLE:  .DATA.W H'0000,H'0001,H'007F,H'0080,H'00FF,H'0100,H'0FFF,H'1000
        .DATA.W H'3FFF,H'4000,H'7FFE,H'7FFF,H'8000,H'8001,H'FFFE,H'FFFF
        .DATA.W H'0123,H'4567,H'89AB,H'CDEF,H'FEDC,H'BA98,H'7654,H'3210
        .DATA.W H'5348,H'4545,H'5453,H'2C20,H'5255,H'4E53,H'2C20,H'4441
        .END
