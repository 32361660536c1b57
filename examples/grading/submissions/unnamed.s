sum:    mv      t0,a0
        li      a0,0
1:      beqz    a1,2f
        lw      t1,(t0)
        add     a0,a0,t1
        addi    t0,t0,4
        addi    a1,a1,-1
        j       1b
2:      ret
