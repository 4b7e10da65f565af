# Adds the numbers from 10 down to 1.
# A raw image begins at 0x80000000, where the hart begins too.

        addi    x5, x0, 10      # 00a00293  the next number to add
        addi    x6, x0, 0       # 00000313  the sum
loop:   add     x6, x6, x5      # 00530333
        addi    x5, x5, -1      # fff28293
        bne     x5, x0, loop    # fe029ce3
halt:   jal     x0, halt        # 0000006f
