# Prints a line on the console and turns the power off.
# A raw image begins at 0x80000000, where the hart begins too.

        .option norelax
        .globl  _start
_start: la      x5, text                # 00000297 03028293
        lui     x6, 0x10000             # 10000337  the console's first register
next:   lbu     x7, 0(x5)               # 0002c383
        beq     x7, x0, off             # 00038863
        sb      x7, 0(x6)               # 00730023  sends the byte
        addi    x5, x5, 1               # 00128293
        jal     x0, next                # ff1ff06f

off:    lui     x8, 0x100               # 00100437  the finisher
        li      x9, 0x5555              # 000054b7 5554849b  pass
        sw      x9, 0(x8)               # 00942023  the last instruction

text:   .asciz  "Hello\n"
