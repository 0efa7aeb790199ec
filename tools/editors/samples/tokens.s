# All forms of tokens; not a source of the grammar. A comment may hold any byte: é ; { ADD a2
        NOP                     # a2
start:  ADD a2, a3, a15
tight:ADD a2,a3,a4#a5
apart : add a0, Movi, aDD
_x1:    .byte 0, 255, 0xfF, 007, -1
        .word -2, 0x80000001
        .align 4
alone:
: ADD
        F { MOVX a2, a3 ; MOVY a3, a2 }
wide:   ADD{ADD a2, a3, a4;SUB a2, a3, a4 ; NOP}
        J loop
        J ADD
        SPLAT v0, a2
ADD:    ADDX a2, ADDX2, ADDX22, xADD, ADD_
add.byte 1
addx8 a8, a9, a10
 a2 a2, a02, a16, a1x, A2, a, b1, a155
        a2: a2
first: second: NOP
        ADDI a2 a3 : NOP ; RET } RET
        BEQZ a2, -0x5, - 5, --5, 12ADD, 0x, 0xg, 0X1, 0x1g, 99999999999999999999
        .bytes 1, .Byte, .word1, .align_, ., .5
x2345678901234567890123456789012 x2345678901234567890123456789012
        x23456789012345678901234567890123 a2
x23456789012345678901234567890123: NOP
        x23456789012345678901234567890123 { NOP }
F { x23456789012345678901234567890123 ; x2345678901234567890123456789012 }
        @ ADD a2, (a3), [a4], a/b, a+b, "a2", é, 'a'
