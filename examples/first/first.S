# The smallest run: one addition, and then a jump to itself.
# A raw image begins at 0x80000000, where the hart begins too.

        addi    x5, x0, 7       # 00700293
halt:   jal     x0, halt        # 0000006f
