# A program in user mode: it may read and execute its own 4096 bytes and nothing else. It asks the machine to
# print a byte by ECALL; then it stores where it may not, and is stopped.

        .equ    TRANSMIT,0x10000000
        .equ    HALT,0x100000
        .equ    FROM_USER,8             # the cause of a call from user mode

        la      t0,handler
        csrw    mtvec,t0
        la      t0,user                 # 4096 bytes from here on, as a power of two:
        srli    t0,t0,2                 # the address without its two low bits,
        ori     t0,t0,0x1ff             # and nine bits set
        csrw    pmpaddr0,t0
        li      t0,0x1d                 # a power of two, to read and to execute
        csrw    pmpcfg0,t0
        la      t0,user
        csrw    mepc,t0
        mret                            # into user mode

handler:
        csrr    t5,mcause
        li      t6,FROM_USER
        bne     t5,t6,stop
        li      t6,TRANSMIT             # a call: print a0 and go on after it
        sw      a0,(t6)
        csrr    t5,mepc
        addi    t5,t5,4
        csrw    mepc,t5
        mret

stop:   li      t0,HALT                 # anything else: halt with the cause as code
        slli    t5,t5,16
        li      t6,0x3333
        or      t5,t5,t6
        sw      t5,(t0)

        .balign 4096
user:   la      s0,text
next:   lbu     a0,(s0)
        beqz    a0,done
        ecall
        addi    s0,s0,1
        j       next
done:   la      t0,user
        sw      zero,(t0)               # refused, since the page may only be read and executed
        j       done
text:   .asciz  "user code\n"
