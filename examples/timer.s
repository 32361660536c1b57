# A timer interrupt: a tick every hundred steps prints a dot while the program waits; after ten it halts.

        .equ    TRANSMIT,0x10000000
        .equ    HALT,0x100000
        .equ    MTIMECMP,0x2004000
        .equ    MTIME,0x200bff8
        .equ    PERIOD,100

        la      t0,tick
        csrw    mtvec,t0
        li      s0,10                   # ticks to come
        call    arm
        li      t0,0x80                 # the timer interrupt of machine mode
        csrw    mie,t0
        csrsi   mstatus,8               # interrupts on

wait:   wfi
        bnez    s0,wait

        csrci   mstatus,8               # interrupts off
        li      t0,TRANSMIT
        li      t1,'\n'
        sw      t1,(t0)
        li      t0,HALT
        li      t1,0x5555               # halt with code 0
        sw      t1,(t0)

arm:    li      t5,MTIME                # asks for an interrupt after a period from now
        lw      t6,(t5)
        addi    t6,t6,PERIOD
        li      t5,MTIMECMP
        sw      t6,(t5)
        sw      zero,4(t5)
        ret

tick:   li      t5,TRANSMIT
        li      t6,'.'
        sw      t6,(t5)
        addi    s0,s0,-1
        mv      s1,ra                   # the waiting program needs no t5, t6, s1
        call    arm
        mv      ra,s1
        mret
