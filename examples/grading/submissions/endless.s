# Eve: counts the wrong register down, and never ends.
sum:    mv      t0,a0
1:      addi    a2,a2,-1
        bnez    a1,1b
        ret
