# Adds the numbers of a table, up to a zero. They should make 84.

        .equ    HALT,0x100000

        la      t0,table
        li      t2,0
add:    lw      t1,(t0)
        addi    t0,t0,4
        add     t2,t2,t1
        bnez    t1,add

        li      t0,HALT
        li      t1,0x5555               # halt with code 0
        sw      t1,(t0)

table:  .word   3,5,8,-13,21,34,0
