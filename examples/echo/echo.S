# Sends back each byte of the console's input, and turns the power off where none is left.
# A raw image begins at 0x80000000, where the hart begins too.

        .option norelax
        .globl  _start
_start: lui     x6, 0x10000             # 10000337  the console's first register
next:   lbu     x7, 5(x6)               # 00534383  the line status
        andi    x7, x7, 1               # 0013f393  input is ready
        beq     x7, x0, off             # 00038863
        lbu     x5, 0(x6)               # 00034283  takes the byte
        sb      x5, 0(x6)               # 00530023  sends it
        jal     x0, next                # fedff06f

off:    lui     x8, 0x100               # 00100437  the finisher
        li      x9, 0x5555              # 000054b7 5554849b  pass
        sw      x9, 0(x8)               # 00942023  the last instruction
