# Jo: goes back to a label that is not there.
sum:    li      a0,0
        bnez    a1,1b
        ret
