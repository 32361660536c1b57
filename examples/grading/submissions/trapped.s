# Cy: loads from address 0, which traps.
sum:    li      a0,0
1:      lw      t1,(a0)
        add     a0,a0,t1
        j       1b
