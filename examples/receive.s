# Receives by interrupt: receive.s.input raises the line of source 24, whose gateway counts edges, beside each
# byte that comes in. The handler sends the byte back; the program waits for the end of the line and halts.

        .equ    SERIAL,0x10000000
        .equ    RECEIVE,4
        .equ    HALT,0x100000
        .equ    PLIC,0xc000000
        .equ    ENABLES,0xc002000
        .equ    THRESHOLD,0xc200000     # claim and complete are at the next word

        la      t0,received
        csrw    mtvec,t0
        li      t0,PLIC
        li      t1,1
        sw      t1,96(t0)               # the priority of source 24
        li      t0,ENABLES
        li      t1,0x1000000            # bit 24
        sw      t1,(t0)
        li      s0,THRESHOLD
        li      s1,SERIAL
        li      s2,1                    # 0 once the line has ended
        li      t0,0x800                # the external interrupt of machine mode
        csrw    mie,t0
        csrsi   mstatus,8               # interrupts on

wait:   wfi
        bnez    s2,wait

        li      t0,HALT
        li      t1,0x5555               # halt with code 0
        sw      t1,(t0)

        .balign 4
received:                               # the program that it interrupts doesn't use t4 to t6
        lw      t4,4(s0)                # claim: the number of the source
        lw      t5,RECEIVE(s1)
        sw      t5,(s1)
        li      t6,'\n'
        bne     t5,t6,1f
        li      s2,0
1:      sw      t4,4(s0)                # complete
        mret
