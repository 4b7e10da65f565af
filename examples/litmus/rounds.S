# The litmus test of store buffering, in 32 rounds: in each, hart 0 writes x and reads y, hart 1 writes y and reads x.
# The hart that is done last prints the rounds, a line for each: what hart 0 read and what hart 1 read. Then it turns the
# power off.
# A raw image begins at 0x80000000, where the harts begin too, in mode M, each with its number in x10.
#
# Each round has words of its own: x at 80001000 and y at 80001040, then x at 80001080, and so on. What was read is kept
# in two bytes a round, from 80000200 up. The barrier counts at 80000300 how often a hart came there: a round begins when
# both harts have come once more.

        .option norelax
        .globl  _start
_start: auipc   x5, 0                   # 00000297  the start of RAM
        lui     x6, 1                   # 00001337
        add     x6, x5, x6              # 00628333  the words of the first round
        slli    x7, x10, 6              # 00651393
        xori    x8, x7, 64              # 0403c413
        add     x7, x6, x7              # 007303b3  this hart's word
        add     x8, x6, x8              # 00830433  the other hart's
        addi    x9, x5, 0x200           # 20028493  what was read
        add     x11, x9, x10            # 00a485b3  this hart's byte
        addi    x12, x5, 0x300          # 30028613  the barrier's count
        li      x13, 1                  # 00100693
        li      x14, 0                  # 00000713  what it must have come to
        li      x15, 64                 # 04000793  that of the last round

next:   amoadd.w.aqrl x0, x13, (x12)    # 06d6202f
        addi    x14, x14, 2             # 00270713
meet:   lw      x16, 0(x12)             # 00062803
        bltu    x16, x14, meet          # fee86ee3

        sw      x13, 0(x7)              # 00d3a023  the write
        lw      x16, 0(x8)              # 00042803  the read
        sb      x16, 0(x11)             # 01058023
        addi    x7, x7, 128             # 08038393
        addi    x8, x8, 128             # 08040413
        addi    x11, x11, 2             # 00258593
        bne     x14, x15, next          # fcf71ce3

        amoadd.w.aqrl x16, x13, (x12)   # 06d6282f
        beq     x16, x15, rest          # 04f80263  the other hart is done later, and prints

        lui     x14, 0x10000            # 10000737  the console's first register
        li      x13, 10                 # 00a00693  a line feed
print:  lb      x16, 0(x9)              # 00048803
        addi    x16, x16, 0x30          # 03080813
        sb      x16, 0(x14)             # 01070023  the digit of hart 0
        lb      x16, 1(x9)              # 00148803
        addi    x16, x16, 0x30          # 03080813
        sb      x16, 0(x14)             # 01070023  the digit of hart 1
        sb      x13, 0(x14)             # 00d70023
        addi    x9, x9, 2               # 00248493
        addi    x15, x15, -2            # ffe78793
        bne     x15, x0, print          # fc079ee3
        lui     x14, 0x100              # 00100737  the finisher
        li      x15, 0x5555             # 000057b7 5557879b  pass
        sw      x15, 0(x14)             # 00f72023  the printing hart's last instruction
rest:   wfi                             # 10500073  for nothing, to the end of the run
