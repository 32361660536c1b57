# Counts the primes below 100, which are 25: by division, as far as that is needed

        .equ    HALT,0x100000

        la      sp,top
        li      s0,2                    # the number
        li      s1,0                    # how many primes came before it
        li      s2,100
each:   mv      a0,s0
        call    prime
        add     s1,s1,a0
        addi    s0,s0,1
        blt     s0,s2,each
        li      t0,HALT
        li      t1,0x5555               # halt with code 0
        sw      t1,(t0)

# whether a0 is a prime: no number from 2 on divides it
prime:  addi    sp,sp,-16
        sw      ra,12(sp)
        sw      s0,8(sp)
        sw      s1,4(sp)
        mv      s0,a0
        li      s1,2
try:    bge     s1,s0,yes
        mv      a0,s0
        mv      a1,s1
        call    rest
        beqz    a0,done                 # it is divided, and a0 is 0
        addi    s1,s1,1
        j       try
yes:    li      a0,1
done:   lw      s1,4(sp)
        lw      s0,8(sp)
        lw      ra,12(sp)
        addi    sp,sp,16
        ret

# what is left of a0 if a1 is taken from it as often as that goes
rest:   blt     a0,a1,left
        sub     a0,a0,a1
        j       rest
left:   ret

        .space  256
top:
