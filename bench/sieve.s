# A sieve, bound by the memory: counts the primes below 2,000,000 with a byte for each number; run it with
# 1024 pages.

        .equ    TRANSMIT,0x10000000
        .equ    HALT,0x100000
        .equ    SIEVE,0x80100000
        .equ    LIMIT,2000000

        li      s0,SIEVE                # 0 at n: nothing has crossed n out
        li      s1,LIMIT
        li      s2,2                    # n
        li      s3,0                    # primes so far
        li      s6,1
1:      add     t0,s0,s2
        lbu     t1,(t0)
        bnez    t1,3f
        addi    s3,s3,1
        mulhu   t3,s2,s2
        bnez    t3,3f
        mul     t2,s2,s2                # crosses out the multiples from n times n on
        bgeu    t2,s1,3f
        add     t2,t2,s0
        add     t4,s0,s1
2:      sb      s6,(t2)
        add     t2,t2,s2
        bltu    t2,t4,2b
3:      addi    s2,s2,1
        bltu    s2,s1,1b

        la      sp,stack_top
        mv      a0,s3
        call    print
        li      a0,'\n'
        call    put
        li      t0,HALT
        li      t1,0x5555
        sw      t1,(t0)

print:  addi    sp,sp,-8                # prints a0 in decimal
        sw      ra,0(sp)
        li      t0,10
        remu    t1,a0,t0
        sw      t1,4(sp)
        divu    a0,a0,t0
        beqz    a0,1f
        call    print
1:      lw      a0,4(sp)
        addi    a0,a0,'0'
        call    put
        lw      ra,0(sp)
        addi    sp,sp,8
        ret

put:    li      t0,TRANSMIT
        sw      a0,(t0)
        ret

        .balign 16
stack:  .space  256
stack_top:
