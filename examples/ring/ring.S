# Two harts wake each other in turn by software interrupts, three times each. The one whose turn it is prints its number.
# A raw image begins at 0x80000000, where the harts begin too, in mode M, each with its number in x10.
#
# mstatus.MIE stays 0: an interrupt that is enabled in mie ends a WFI, and isn't taken.

        .option norelax
        .globl  _start
_start: li      x5, 8                   # 00800293
        csrrw   x0, mie, x5             # 30429073  bit 3: software interrupts
        lui     x6, 0x2000              # 02000337  msip of hart 0, and of hart 1 at 4
        slli    x7, x10, 2              # 00251393
        add     x7, x6, x7              # 007303b3  msip of this hart
        xori    x8, x10, 1              # 00154413
        slli    x8, x8, 2               # 00241413
        add     x8, x6, x8              # 00830433  msip of the other one
        lui     x9, 0x10000             # 100004b7  the console's first register
        addi    x11, x10, 0x30          # 03050593  the digit to print
        li      x12, 3                  # 00300613  turns left
        li      x13, 1                  # 00100693
        beq     x10, x0, turn           # 00050663  hart 0 begins

sleep:  wfi                             # 10500073  until the other hart sets the bit
        sw      x0, 0(x7)               # 0003a023  clears it
turn:   sb      x11, 0(x9)              # 00b48023  prints the digit
        sw      x13, 0(x8)              # 00d42023  wakes the other hart
        addi    x12, x12, -1            # fff60613
        bne     x12, x0, sleep          # fe0616e3
        beq     x10, x0, rest           # 00050a63

        lui     x14, 0x100              # 00100737  hart 1 has the last turn: the finisher
        li      x15, 0x5555             # 000057b7 5557879b  pass
        sw      x15, 0(x14)             # 00f72023  hart 1's last instruction
rest:   csrrw   x0, mie, x0             # 30401073  hart 0 waits for nothing
        wfi                             # 10500073  to the end of the run
