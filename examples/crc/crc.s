        MOVI a2, 0
        MOVI a3, 0x31
        MOVI a4, 8
loop:   CRC a2, a3
        SLLI a3, a3, 1
        ADDI a4, a4, -1
        BNEZ a4, loop
        SIMCALL
