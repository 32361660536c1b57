# External interrupts: sources 5 and 9 of the interrupt controller ask for service; the program claims, prints
# the source's number and completes. The threshold holds back source 9, of the lower priority, until the
# program lowers it. The lines rise and fall as interrupt.s.input says.

        .equ    TRANSMIT,0x10000000
        .equ    HALT,0x100000
        .equ    PLIC,0xc000000
        .equ    ENABLES,0xc002000
        .equ    THRESHOLD,0xc200000     # claim and complete are at the next word

        la      t0,handler
        csrw    mtvec,t0
        li      t0,PLIC
        li      t1,3
        sw      t1,20(t0)
        li      t1,2
        sw      t1,36(t0)               # four times the number of the source
        li      t0,ENABLES
        li      t1,0x220                # bits 5 and 9
        sw      t1,(t0)
        li      s0,THRESHOLD
        li      t1,2
        sw      t1,(s0)                 # source 9 has to wait
        li      s1,3                    # interrupts to come
        li      t0,0x800                # the external interrupt of machine mode
        csrw    mie,t0
        csrsi   mstatus,8               # interrupts on

wait:   wfi
        li      t0,1
        bne     s1,t0,more
        sw      zero,(s0)               # the last one is that of source 9
more:   bnez    s1,wait

        li      t0,TRANSMIT
        li      t1,'\n'
        sw      t1,(t0)
        li      t0,HALT
        li      t1,0x5555               # halt with code 0
        sw      t1,(t0)

handler:
        lw      t5,4(s0)                # claim: the number of the source
        addi    t6,t5,'0'
        li      t4,TRANSMIT
        sw      t6,(t4)
        sw      t5,4(s0)                # complete
        addi    s1,s1,-1
        mret
