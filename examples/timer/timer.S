# Sets the timer, waits by WFI and takes the timer interrupt; its handler puts the timer off. Then the power goes off.
# A raw image begins at 0x80000000, where the hart begins too, in mode M.

        .option norelax
        .globl  _start
_start: la      x5, handler             # 00000297 04428293
        csrrw   x0, mtvec, x5           # 30529073
        lui     x6, 0x2004              # 02004337  mtimecmp of hart 0
        lui     x7, 0x200c              # 0200c3b7  mtime stands 8 bytes before
        ld      x8, -8(x7)              # ff83b403
        addi    x8, x8, 100             # 06440413
        sd      x8, 0(x6)               # 00833023  due in 100 ticks
        li      x9, 0x80                # 08000493
        csrrw   x0, mie, x9             # 30449073  bit 7: timer interrupts
        csrrsi  x0, mstatus, 8          # 30046073  MIE
        wfi                             # 10500073  time jumps, since no hart can go on before
        ld      x11, -8(x7)             # ff83b583  after the interrupt: the time

off:    lui     x12, 0x100              # 00100637  the finisher
        li      x13, 0x5555             # 000056b7 5556869b  pass
        sw      x13, 0(x12)             # 00d62023  the last instruction

        .balign 4
handler:
        csrrs   x10, mcause, x0         # 34202573
        li      x14, -1                 # fff00713
        sd      x14, 0(x6)              # 00e33023  no alarm: the line goes off
        mret                            # 30200073
