# Counts the words of a text, and keeps the count in memory. It should make 4.

        .equ    HALT,0x100000

        la      s0,text
        la      s1,count
        li      t2,1                    # the byte before was a blank
next:   lbu     t0,(s0)
        beqz    t0,done
        addi    s0,s0,1
        li      t1,32
        beq     t0,t1,blank
        beqz    t2,next                 # inside of a word
        lw      t3,(s1)
        addi    t3,t3,1
        sw      t3,(s1)
        j       next                    # and t2 stays
blank:  li      t2,1
        j       next

done:   li      t0,HALT
        li      t1,0x5555               # halt with code 0
        sw      t1,(t0)

        .align  2
count:  .word   0
text:   .asciz  "the cat sat down"
