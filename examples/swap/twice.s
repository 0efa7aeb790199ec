F { MOVX a2, a3 ; MOVY a2, a3 }
