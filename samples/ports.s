; ports.s: the feeder of a press. The sensor's counter, the lamps and the keys are ports, which take longer than memory does.
;
; At each sheet the routine FEED adds what the sensor counted to the run. Where the order is reached it lights the lamp READY, and if
; the key NEXT is held it puts out the lamp ORDER and begins the next run.
;
; Read-only memory from 0; working memory H'FFEF10, 4,336 bytes, with the ports H'FFFF20 to H'FFFF2F. The routine's entry is H'000010.
; Without the ports the longest way takes 90 states, with them 107 on a bus of 8 bits and 98 on one of 16. There are 96.

LAST:   .EQU    H'FFEF20        ; word: the counter at the sheet before
RUN:    .EQU    H'FFEF22        ; word: sheets of this run
ORDER:  .EQU    H'FFEF24        ; word: sheets that are ordered
COUNT:  .EQU    H'FFFF20        ; port, word: the sensor's counter
LAMPS:  .EQU    H'FFFF24        ; port, byte: bit 0 READY, bit 1 ORDER
KEYS:   .EQU    H'FFFF25        ; port, byte: bit 7 NEXT

        .ORG    H'000000
        .DATA.L FEED

        .ORG    H'000010
FEED:   MOV.W   @COUNT:16,R0
        MOV.W   @LAST:16,R1
        MOV.W   R0,@LAST:16
        SUB.W   R1,R0           ; sheets since the sheet before
        MOV.W   @RUN:16,R1
        ADD.W   R0,R1
        MOV.W   R1,@RUN:16
        MOV.W   @ORDER:16,R0
        CMP.W   R0,R1
        BLO     DONE:8          ; the order is not reached
        BSET    #0,@LAMPS:8
        BTST    #7,@KEYS:8
        BEQ     DONE:8          ; the key is not held
        BCLR    #1,@LAMPS:8
        SUB.W   R1,R1
        MOV.W   R1,@RUN:16
DONE:   RTS
        .END
