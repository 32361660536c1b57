# A store through a pointer that runs past its array: the code behind it is overwritten.

        la      s0,list
        li      s1,6                    # the list has 4 words
fill:   sw      s1,(s0)
        addi    s0,s0,4
        addi    s1,s1,-1
        bnez    s1,fill
        call    done

list:   .word   0,0,0,0
done:   li      t0,0x100000
        li      t1,0x5555               # halt with code 0
        sw      t1,(t0)
