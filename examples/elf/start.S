# The beginning: a stack, then main, then the power goes off.

        .section .text.start
        .globl  _start
_start: la      sp, stack_top
        call    main
        li      t0, 0x100000    # the finisher
        li      t1, 0x5555      # off
        sw      t1, 0(t0)
halt:   j       halt
