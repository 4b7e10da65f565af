# Adds 1 to the word at 0x80000100 by one atomic operation. Whatever the order of the harts, no update is lost.
# A raw image begins at 0x80000000, where the harts begin too.

        auipc   x5, 0               # 00000297  the start of RAM
        addi    x5, x5, 256         # 10028293  where the word stands
        addi    x6, x0, 1           # 00100313
        amoadd.w x7, x6, (x5)       # 0062a3af  x7 gets the word as it was
halt:   jal     x0, halt            # 0000006f
