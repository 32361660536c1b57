lui t0,0x10000
li a0,72
sw a0,0(t0)
lui t1,0x100
li t2,0x5555
sw t2,0(t1)
