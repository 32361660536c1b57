# adds, and then traps without a handler
        li      a0,2
        addi    a0,a0,3
sum:    add     a1,a0,a0
        ebreak
