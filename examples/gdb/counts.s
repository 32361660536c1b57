# Sums the numbers up to 100 in a word, while the handler of a timer interrupt counts its ticks in another.

        .equ    HALT,0x100000
        .equ    MTIMECMP,0x2004000
        .equ    MTIME,0x200bff8
        .equ    PERIOD,150

        la      t0,tick
        csrw    mtvec,t0
        call    arm
        li      t0,0x80                 # the timer interrupt of machine mode
        csrw    mie,t0
        csrsi   mstatus,8               # interrupts on

        la      s0,total
        li      s1,1
loop:   lw      t0,(s0)
        add     t0,t0,s1
        sw      t0,(s0)
        addi    s1,s1,1
        li      t0,100
        ble     s1,t0,loop

end:    csrci   mstatus,8               # interrupts off
        li      t0,HALT
        li      t1,0x5555               # halt with code 0
        sw      t1,(t0)

arm:    li      t5,MTIME                # asks for an interrupt after a period from now
        lw      t6,(t5)
        addi    t6,t6,PERIOD
        li      t5,MTIMECMP
        sw      t6,(t5)
        sw      zero,4(t5)
        ret

tick:   la      t5,ticks
        lw      t6,(t5)
        addi    t6,t6,1
        sw      t6,(t5)
        mv      s2,ra                   # the program needs no t5, t6, s2
        call    arm
        mv      ra,s2
        mret

total:  .word   0
ticks:  .word   0
