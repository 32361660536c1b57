# A task in user mode that is stopped by protection: it may read and execute its own 4096 bytes and nothing
# else, and it tries to count in them.

        la      t0,task                 # 4096 bytes from here on, as a power of two:
        srli    t0,t0,2                 # the address without its two low bits,
        ori     t0,t0,0x1ff             # and nine bits set
        csrw    pmpaddr0,t0
        li      t0,0x1d                 # a power of two, to read and to execute
        csrw    pmpcfg0,t0
        la      t0,task
        csrw    mepc,t0
        mret                            # into user mode

        .balign 4096
task:   la      s0,count
        lw      t0,(s0)
        addi    t0,t0,1
        sw      t0,(s0)                 # refused
        j       task
count:  .word   0
