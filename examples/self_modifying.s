# Self-modifying code: each round changes the immediate of one instruction, and the next round executes the
# new one.

        .equ    TRANSMIT,0x10000000
        .equ    HALT,0x100000

        li      s0,TRANSMIT
        li      s1,26                   # letters to come
patch:  li      a0,'A'                  # one word: addi a0,zero,'A'
        sw      a0,(s0)
        lw      t0,patch                # the word that was just executed
        li      t1,0x100000             # the immediate begins at bit 20
        add     t0,t0,t1
        sw      t0,patch,t2
        addi    s1,s1,-1
        bnez    s1,patch

        li      a0,'\n'
        sw      a0,(s0)
        li      t0,HALT
        li      t1,0x5555               # halt with code 0
        sw      t1,(t0)
