# Edges: source 24 is triggered by the edges of its line. edges.s.input raises it three times in one step, and
# the program is interrupted three times: each edge stays pending until the one before it is completed.

        .equ    TRANSMIT,0x10000000
        .equ    HALT,0x100000
        .equ    PLIC,0xc000000
        .equ    ENABLES,0xc002000
        .equ    THRESHOLD,0xc200000     # claim and complete are at the next word

        la      t0,handler
        csrw    mtvec,t0
        li      t0,PLIC
        li      t1,1
        sw      t1,96(t0)               # the priority of source 24
        li      t0,ENABLES
        li      t1,0x1000000            # bit 24
        sw      t1,(t0)
        li      s0,THRESHOLD
        li      s1,3                    # interrupts to come
        li      t0,0x800                # the external interrupt of machine mode
        csrw    mie,t0
        csrsi   mstatus,8               # interrupts on

wait:   wfi
        bnez    s1,wait

        li      t0,TRANSMIT
        li      t1,'\n'
        sw      t1,(t0)
        li      t0,HALT
        li      t1,0x5555               # halt with code 0
        sw      t1,(t0)

handler:
        lw      t5,4(s0)                # claim: the number of the source
        li      t4,TRANSMIT
        li      t6,'!'
        sw      t6,(t4)
        sw      t5,4(s0)                # complete
        addi    s1,s1,-1
        mret
