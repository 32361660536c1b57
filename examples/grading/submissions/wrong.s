# Bo: adds the first word of an empty table, too.
sum:    mv      t0,a0
        li      a0,0
1:      lw      t1,(t0)
        add     a0,a0,t1
        addi    t0,t0,4
        addi    a1,a1,-1
        bgtz    a1,1b
        ret
