# Takes three traps from mode U: an ecall and an illegal instruction, which go to M, and a breakpoint, which goes to S.
# Each handler keeps the cause, steps over the instruction and returns.
# A raw image begins at 0x80000000, where the hart begins too, in mode M.

        .option norelax
        .globl  _start
_start: la      x6, machine             # 00000317 03c30313
        csrrw   x0, mtvec, x6           # 30531073  traps to M
        la      x6, supervisor          # 00000317 04830313
        csrrw   x0, stvec, x6           # 10531073  traps to S
        csrrwi  x0, medeleg, 8          # 30245073  breakpoints (cause 3) go to S
        la      x6, user                # 00000317 01030313
        csrrw   x0, mepc, x6            # 34131073
        mret                            # 30200073  to user, in mode U: MPP is 0 at the start

user:   ecall                           # 00000073  cause 8
        .word   0                       # 00000000  cause 2: this is no instruction
        ebreak                          # 00100073  cause 3
halt:   jal     x0, halt                # 0000006f

machine:
        addi    x11, x10, 0             # 00050593  the cause before
        csrrs   x10, mcause, x0         # 34202573
        csrrs   x7, mepc, x0            # 341023f3
        addi    x7, x7, 4               # 00438393  the next instruction
        csrrw   x0, mepc, x7            # 34139073
        mret                            # 30200073

supervisor:
        csrrs   x12, scause, x0         # 14202673
        csrrs   x7, sepc, x0            # 141023f3
        addi    x7, x7, 4               # 00438393
        csrrw   x0, sepc, x7            # 14139073
        sret                            # 10200073
