# A tight arithmetic loop: 4,000,000 turns of a generator of numbers, with a product, shifts and sums;
# prints what it ends at.

        .equ    TRANSMIT,0x10000000
        .equ    HALT,0x100000
        .equ    TURNS,4000000

        li      s0,TURNS
        li      s1,1664525
        li      s2,1013904223
        li      a0,1
        li      a1,0
1:      mul     a0,a0,s1
        add     a0,a0,s2
        srli    t0,a0,13
        xor     a1,a1,t0
        slli    t1,a1,3
        sub     a1,t1,a1
        addi    s0,s0,-1
        bnez    s0,1b

        mv      s3,a1                   # prints s3 in hexadecimal
        li      s4,8
        li      s5,TRANSMIT
2:      srli    t0,s3,28
        slli    s3,s3,4
        li      t1,10
        addi    t2,t0,'0'
        bltu    t0,t1,3f
        addi    t2,t0,'a' - 10
3:      sw      t2,(s5)
        addi    s4,s4,-1
        bnez    s4,2b
        li      t0,'\n'
        sw      t0,(s5)
        li      t0,HALT
        li      t1,0x5555
        sw      t1,(t0)
