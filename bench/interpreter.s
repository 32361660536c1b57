# A branchy interpreter: a machine of eight registers, whose instructions are four bytes (what to do, and
# three operands), sums the lengths of the chains n, n / 2 or 3 n + 1, .., 1 for n from 1 to 2999.

        .equ    TRANSMIT,0x10000000
        .equ    HALT,0x100000

        la      s0,program
        la      s1,registers
        la      s2,actions

next:   lbu     t0,0(s0)                # what to do
        lbu     t1,1(s0)                # the offsets of three registers, or a distance, or a number
        lbu     t2,2(s0)
        lbu     t3,3(s0)
        addi    s0,s0,4
        slli    t0,t0,2
        add     t0,t0,s2
        lw      t0,(t0)
        jr      t0

sum:    add     t2,t2,s1                # register t1 becomes t2 + t3
        add     t3,t3,s1
        lw      t2,(t2)
        lw      t3,(t3)
        add     t2,t2,t3
        add     t1,t1,s1
        sw      t2,(t1)
        j       next

more:   add     t2,t2,s1                # register t1 becomes t2 plus the number t3
        lw      t2,(t2)
        add     t2,t2,t3
        add     t1,t1,s1
        sw      t2,(t1)
        j       next

half:   add     t2,t2,s1                # register t1 becomes half of t2
        lw      t2,(t2)
        srli    t2,t2,1
        add     t1,t1,s1
        sw      t2,(t1)
        j       next

odd:    add     t2,t2,s1                # goes t1 bytes on where t2 is odd
        lw      t2,(t2)
        andi    t2,t2,1
        beqz    t2,next
        add     s0,s0,t1
        j       next

unlike: add     t2,t2,s1                # goes back t1 bytes where t2 and t3 differ
        add     t3,t3,s1
        lw      t2,(t2)
        lw      t3,(t3)
        beq     t2,t3,next
        sub     s0,s0,t1
        j       next

like:   add     t2,t2,s1                # goes t1 bytes on where t2 and t3 are the same
        add     t3,t3,s1
        lw      t2,(t2)
        lw      t3,(t3)
        bne     t2,t3,next
        add     s0,s0,t1
        j       next

end:    lw      a0,12(s1)               # the sum, in decimal
        la      sp,stack_top
        call    print
        li      a0,'\n'
        call    put
        li      t0,HALT
        li      t1,0x5555
        sw      t1,(t0)

print:  addi    sp,sp,-8
        sw      ra,0(sp)
        li      t0,10
        remu    t1,a0,t0
        sw      t1,4(sp)
        divu    a0,a0,t0
        beqz    a0,1f
        call    print
1:      lw      a0,4(sp)
        addi    a0,a0,'0'
        call    put
        lw      ra,0(sp)
        addi    sp,sp,8
        ret

put:    li      t0,TRANSMIT
        sw      a0,(t0)
        ret

        .balign 4
actions:
        .word   sum,more,half,odd,unlike,like,end
        .equ    SUM,0
        .equ    MORE,1
        .equ    HALF,2
        .equ    ODD,3
        .equ    UNLIKE,4
        .equ    LIKE,5
        .equ    END,6

        # the offsets of its registers
        .equ    ZERO,0
        .equ    N,4
        .equ    X,8
        .equ    TOTAL,12
        .equ    LIMIT,16
        .equ    ONE,20
        .equ    TWICE,24
registers:
        .word   0,1,0,0,3000,1,0,0

program:
outer:  .byte   MORE,X,N,0              # x = n
inner:  .byte   LIKE,done - .-4,X,ONE   # until x is 1
        .byte   ODD,triple - .-4,X,0
        .byte   HALF,X,X,0              # x = x / 2
        .byte   LIKE,count - .-4,ZERO,ZERO
triple: .byte   SUM,TWICE,X,X           # x = 3 x + 1
        .byte   SUM,X,TWICE,X
        .byte   MORE,X,X,1
count:  .byte   MORE,TOTAL,TOTAL,1
        .byte   UNLIKE,.+4 - inner,ZERO,ONE
done:   .byte   MORE,N,N,1
        .byte   UNLIKE,.+4 - outer,N,LIMIT
        .byte   END,0,0,0

        .balign 16
stack:  .space  256
stack_top:
