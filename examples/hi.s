TEXT main(SB), $12              // a function whose frame is 12 bytes
        MOVW $hi<>(SB), R1      // the address of hi
        MOVW R1, 8(R29)         // the second argument of write
        MOVW $3, R1
        MOVW R1, 12(R29)        // the third: so many bytes
        MOVW $1, R1             // the first: where to
        JAL write(SB)
        MOVW $0, R1             // no text
        JAL exits(SB)
        RET

GLOBL hi<>(SB), $4              // 4 bytes, known in this file alone
DATA hi<>+0(SB)/1, $'h'
DATA hi<>+1(SB)/1, $'i'
DATA hi<>+2(SB)/1, $'\n'        // the fourth byte stays 0
