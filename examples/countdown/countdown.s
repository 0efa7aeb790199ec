        MOVI a2, 5
        MOVI a3, 0
loop:   ADD a3, a3, a2
        ADDI a2, a2, -1
        BNEZ a2, loop
        SIMCALL
