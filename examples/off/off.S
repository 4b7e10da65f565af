# Turns the power off with the code 42.
# A raw image begins at 0x80000000, where the hart begins too.

        .option norelax
        .globl  _start
_start: lui     x5, 0x100               # 001002b7  the finisher
        li      x6, 0x002a3333          # 002a3337 3333031b  fail, and the code above it
        sw      x6, 0(x5)               # 0062a023  the last instruction
