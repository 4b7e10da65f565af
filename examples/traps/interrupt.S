# Raises a supervisor software interrupt by its bit in mip, takes it in M and clears the bit.
# A raw image begins at 0x80000000, where the hart begins too, in mode M.

        .option norelax
        .globl  _start
_start: la      x6, handler             # 00000317 02030313
        csrrw   x0, mtvec, x6           # 30531073
        csrrwi  x0, mie, 2              # 30415073  bit 1: supervisor software interrupts
        csrrsi  x0, mstatus, 8          # 30046073  MIE
        csrrs   x5, time, x0            # c01022f3
        csrrsi  x7, mip, 2              # 344163f3  x7 gets mip as it was
halt:   jal     x0, halt                # 0000006f

handler:
        csrrs   x10, mcause, x0         # 34202573
        csrrci  x0, mip, 2              # 34417073
        mret                            # 30200073
