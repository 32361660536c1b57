# Clears a table and counts that. In the end a2 is the count, which should be 1.

        .equ    HALT,0x100000

        li      t0,1
        la      t1,count
        sw      t0,(t1)                 # it was cleared once
        la      a0,table
        li      a1,3                    # the words of the table
clear:  sw      zero,(a0)
        addi    a0,a0,4
        addi    a1,a1,-1
        bnez    a1,clear
        lw      a2,(t1)
        li      t0,0x5555
        li      t1,HALT
        sw      t0,(t1)

table:  .word   5,6
count:  .word   0
