# A handler that forgets to go on after the instruction that trapped: mepc has to grow by 4 before the mret.

        .equ    TRANSMIT,0x10000000
        .equ    HALT,0x100000

        la      t0,handler
        csrw    mtvec,t0
        li      a0,'A'
        ecall                           # print a0
        li      t0,HALT
        li      t1,0x5555               # halt with code 0
        sw      t1,(t0)

handler:
        li      t6,TRANSMIT
        sw      a0,(t6)
        mret
