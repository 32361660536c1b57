# A program in user mode asks by ECALL for the sum of 1 to 3; the handler, which has a stack of its own, adds them by a
# recursion. Then a function clears one word too many of its frame.

        .equ    HALT,0x100000

        la      t0,handler
        csrw    mtvec,t0
        la      t0,own_top
        csrw    mscratch,t0
        li      t0,-1                   # user mode may use all addresses
        csrw    pmpaddr0,t0
        li      t0,0x1f
        csrw    pmpcfg0,t0
        la      t0,main
        csrw    mepc,t0
        la      sp,top
        mret                            # into user mode

main:   li      a0,3
        call    ask
        call    clears
1:      j       1b

ask:    addi    sp,sp,-16
        sw      ra,12(sp)
        ecall
        lw      ra,12(sp)
        addi    sp,sp,16
        ret

# clears the three words that it has room for, and the one where it keeps ra
clears: addi    sp,sp,-16
        sw      ra,12(sp)
        mv      a0,sp
        li      a1,4
        call    clear
        lw      ra,12(sp)
        addi    sp,sp,16
        ret

# clears a1 words from a0 on
clear:  beqz    a1,cleared
        sw      zero,(a0)
        addi    a0,a0,4
        addi    a1,a1,-1
        j       clear
cleared:
        ret

handler:
        csrrw   sp,mscratch,sp          # the handler's stack
        addi    sp,sp,-16
        sw      ra,12(sp)
        sw      t0,8(sp)
        csrr    t0,mcause
        addi    t0,t0,-8                # a call from user mode?
        bnez    t0,stop
        call    sum
        csrr    t0,mepc                 # go on after it
        addi    t0,t0,4
        csrw    mepc,t0
        lw      t0,8(sp)
        lw      ra,12(sp)
        addi    sp,sp,16
        csrrw   sp,mscratch,sp
        mret

stop:   li      t0,HALT
        li      t1,0x13333              # halt with code 1
        sw      t1,(t0)

# the sum of 1 to a0
sum:    beqz    a0,none
        addi    sp,sp,-16
        sw      ra,12(sp)
        sw      a0,8(sp)
        addi    a0,a0,-1
        call    sum
        lw      t0,8(sp)
        add     a0,a0,t0
        lw      ra,12(sp)
        addi    sp,sp,16
none:   ret

        .balign 16
        .space  128
own_top:
        .space  128
top:
