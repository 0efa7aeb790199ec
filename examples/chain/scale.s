MOVI a2, 4
loop: SCALE
ADDI a2, a2, -1
BNEZ a2, loop
SIMCALL
