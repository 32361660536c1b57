# An interrupt of a source whose priority isn't above the threshold.

        .equ    HALT,0x100000
        .equ    PLIC,0xc000000

        la      t0,heard
        csrw    mtvec,t0
        li      t0,PLIC
        li      t1,1
        sw      t1,20(t0)               # source 5 has priority 1
        li      t2,0xc002000
        li      t1,0x20
        sw      t1,(t2)                 # it is enabled
        li      t2,0xc200000
        li      t1,1
        sw      t1,(t2)                 # the threshold is 1, too
        li      t0,0x800                # the external interrupt of machine mode
        csrw    mie,t0
        csrsi   mstatus,8               # interrupts on
wait:   wfi
        j       wait

heard:  li      t0,HALT
        li      t1,0x5555               # halt with code 0
        sw      t1,(t0)
