# Sets up page tables in M, enters S under Sv39 by MRET, and there loads and stores through a page of 4 KiB and through a
# gigapage. A store takes a page fault that S handles; then an entry is changed, and SFENCE.VMA lets the change be seen.
# A raw image begins at 0x80000000, where the hart begins too, in mode M.
#
# Physical addresses: 0x80001000 the table of level 2 (the root), 0x80002000 that of level 1, 0x80003000 that of level 0;
# 0x80004000 and 0x80005000 the two frames that the page gets in turn.
# Virtual addresses: 0x40404000 is the page, whose indices are 1, 2 and 4; the gigapage leads from each address of RAM to
# itself.

        .option norelax
        .globl  _start
_start: auipc   x5, 1                   # 00001297  the table of level 2
        lui     x8, 1                   # 00001437  4 KiB
        add     x6, x5, x8              # 00828333  the table of level 1
        add     x7, x6, x8              # 008303b3  the table of level 0
        li      x9, 0x20000801          # 200014b7 8014849b  the table of level 1: V
        sd      x9, 8(x5)               # 0092b423
        li      x9, 0x200000cf          # 200004b7 0cf4849b  the gigapage at 0x80000000: V, R, W, X, A, D
        sd      x9, 16(x5)              # 0092b823
        li      x9, 0x20000c01          # 200014b7 c014849b  the table of level 0: V
        sd      x9, 16(x6)              # 00933823
        li      x9, 0x20001047          # 200014b7 0474849b  the frame at 0x80004000: V, R, W, A, but not D
        sd      x9, 32(x7)              # 0293b023

        la      x9, handler             # 00000497 06c48493
        csrrw   x0, stvec, x9           # 10549073  traps to S
        lui     x9, 8                   # 000084b7
        csrrw   x0, medeleg, x9         # 30249073  page faults of stores (cause 15) go to S
        la      x9, supervisor          # 00000497 02c48493
        csrrw   x0, mepc, x9            # 34149073
        srli    x9, x8, 1               # 00145493
        csrrw   x0, mstatus, x9         # 30049073  MPP is S
        addi    x9, x0, 1               # 00100493
        slli    x9, x9, 63              # 03f49493  MODE is Sv39
        srli    x10, x5, 12             # 00c2d513
        or      x9, x9, x10             # 00a4e4b3
        csrrw   x0, satp, x9            # 18049073  the root's frame
        mret                            # 30200073

supervisor:
        lui     x11, 0x40404            # 404045b7  the page
        ld      x12, 0(x11)             # 0005b603  allowed: the leaf is kept
        addi    x13, x0, 7              # 00700693
        sd      x13, 0(x11)             # 00d5b023  a page fault, since D is clear; after the handler it's allowed
        ld      x14, 32(x7)             # 0203b703  the page's entry, through the gigapage
        addi    x14, x14, 0x400         # 40070713  the next frame
        sd      x14, 32(x7)             # 02e3b023
        ld      x15, 0(x11)             # 0005b783  7: what was kept still leads to the frame before
        sfence.vma                      # 12000073
        ld      x16, 0(x11)             # 0005b803  0: the new frame
halt:   jal     x0, halt                # 0000006f

handler:
        ld      x17, 32(x7)             # 0203b883  the page's entry
        ori     x17, x17, 0x80          # 0808e893  D
        sd      x17, 32(x7)             # 0313b023
        sfence.vma                      # 12000073  what was kept has D clear
        sret                            # 10200073  to the store again
