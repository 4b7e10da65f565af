# Adds 1 to the word at 0x80000100 by a load, an addition and a store. Played by two harts, an update can be lost.
# A raw image begins at 0x80000000, where the harts begin too.

        auipc   x5, 0           # 00000297  the start of RAM
        lw      x6, 256(x5)     # 1002a303  the word
        addi    x6, x6, 1       # 00130313
        sw      x6, 256(x5)     # 1062a023
halt:   jal     x0, halt        # 0000006f
