#!/bin/sh
# Writes loop.out, a program of 100,000,005 instructions that exits with an empty text: a loop of ten
# instructions that runs 10,000,000 times. Simulate it by 'vsuite vi -n 200000000 loop.out'.
words() {
    for word in "$@"; do
        for byte in $(echo "$word" | sed 's/../& /g'); do
            # a byte as three octal digits
            printf "\\$(printf '%03o' "0x$byte")"
        done
    done
}
{
    # magic, text, data, bss, symbols, entry, and two tables for debuggers
    words 00000407 0000003c 00000000 00000000 00000000 00001020 00000000 00000000
    words 3c040098 # LUI R4, 0x98
    words 34849680 # ORI R4, R4, 0x9680
    words 24a50003 # ADDIU R5, R5, 3, where the loop begins
    words afa5fff8 # SW R5, -8(R29)
    words 8fa6fff8 # LW R6, -8(R29)
    words 2484ffff # ADDIU R4, R4, -1
    words 00e63821 # ADDU R7, R7, R6
    words 01074026 # XOR R8, R8, R7
    words 00084840 # SLL R9, R8, 1
    words 01495021 # ADDU R10, R10, R9
    words 1480fff7 # BNE R4, R0, to the loop's begin
    words 00a7582b # SLTU R11, R5, R7, in the slot
    words 27bdfff0 # ADDIU R29, R29, -16
    words 24010008 # ADDIU R1, R0, 8
    words 0000000c # SYSCALL: exits, with the address 0
} > loop.out
