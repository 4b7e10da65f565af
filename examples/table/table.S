# Writes the numbers 12 down to 1 as halfwords at 0x80000100, adds them again and keeps the sum at 0x80000200.
# A raw image begins at 0x80000000, where the hart begins too.

        auipc   x5, 0           # 00000297  the start of RAM
        addi    x6, x5, 256     # 10028313  where the next halfword stands
        addi    x7, x0, 12      # 00c00393  the next number
fill:   sh      x7, 0(x6)       # 00731023
        addi    x6, x6, 2       # 00230313
        addi    x7, x7, -1      # fff38393
        bne     x7, x0, fill    # fe039ae3
        addi    x7, x0, 12      # 00c00393  how many are left
sum:    addi    x6, x6, -2      # ffe30313
        lh      x8, 0(x6)       # 00031403
        add     x9, x9, x8      # 008484b3  the sum
        addi    x7, x7, -1      # fff38393
        bne     x7, x0, sum     # fe0398e3
        sd      x9, 512(x5)     # 2092b023
halt:   jal     x0, halt        # 0000006f
