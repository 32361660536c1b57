# A timer of which only half is set: mtimecmp has 64 bits.

        .equ    HALT,0x100000
        .equ    MTIMECMP,0x2004000

        la      t0,tick
        csrw    mtvec,t0
        li      t0,MTIMECMP
        li      t1,50                   # an interrupt at time 50?
        sw      t1,(t0)                 # the high half stays as at reset
        li      t0,0x80                 # the timer interrupt of machine mode
        csrw    mie,t0
        csrsi   mstatus,8               # interrupts on
wait:   wfi
        j       wait

tick:   li      t0,HALT
        li      t1,0x5555               # halt with code 0
        sw      t1,(t0)
