# The litmus test of store buffering: hart 0 writes x and reads y, hart 1 writes y and reads x.
# The hart that is done last prints what hart 0 read and what hart 1 read, and turns the power off.
# A raw image begins at 0x80000000, where the harts begin too, in mode M, each with its number in x10.
#
# x stands at 80000100 and y at 80000140. What was read is kept in two bytes at 80000200, and 80000240 counts the harts
# that are done.

        .option norelax
        .globl  _start
_start: auipc   x5, 0                   # 00000297  the start of RAM
        slli    x6, x10, 6              # 00651313
        add     x6, x5, x6              # 00628333  256 before this hart's word
        xori    x7, x6, 64              # 04034393  256 before the other hart's
        li      x9, 1                   # 00100493
        sw      x9, 256(x6)             # 10932023  the write
        lw      x8, 256(x7)             # 1003a403  the read

        add     x11, x5, x10            # 00a285b3
        sb      x8, 512(x11)            # 20858023
        addi    x12, x5, 576            # 24028613
        amoadd.w.aqrl x13, x9, (x12)    # 069626af
        beq     x13, x0, rest           # 02068c63  the other hart is done later, and prints

        lui     x14, 0x10000            # 10000737  the console's first register
        lb      x15, 512(x5)            # 20028783
        addi    x15, x15, 0x30          # 03078793
        sb      x15, 0(x14)             # 00f70023  the digit of hart 0
        lb      x15, 513(x5)            # 20128783
        addi    x15, x15, 0x30          # 03078793
        sb      x15, 0(x14)             # 00f70023  the digit of hart 1
        li      x15, 10                 # 00a00793
        sb      x15, 0(x14)             # 00f70023  a line feed
        lui     x14, 0x100              # 00100737  the finisher
        li      x15, 0x5555             # 000057b7 5557879b  pass
        sw      x15, 0(x14)             # 00f72023  the printing hart's last instruction
rest:   wfi                             # 10500073  for nothing, to the end of the run
