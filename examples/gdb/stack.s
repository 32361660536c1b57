# A trap handler that has a stack of its own: it exchanges sp with mscratch, and gives it back at its end.

        la      t0,handler
        csrw    mtvec,t0
        la      t0,own_top
        csrw    mscratch,t0
        la      sp,stack_top
        call    outer
1:      j       1b

outer:  addi    sp,sp,-16
        sw      ra,12(sp)
        call    inner
        lw      ra,12(sp)
        addi    sp,sp,16
        ret

inner:  addi    sp,sp,-16
        sw      ra,12(sp)
        ecall
        lw      ra,12(sp)
        addi    sp,sp,16
        ret

handler:
        csrrw   sp,mscratch,sp
        addi    sp,sp,-16
        sw      ra,12(sp)
        sw      t0,8(sp)
        call    skip
        lw      t0,8(sp)
        lw      ra,12(sp)
        addi    sp,sp,16
        csrrw   sp,mscratch,sp
        mret

skip:   csrr    t0,mepc
        addi    t0,t0,4
        csrw    mepc,t0
        ret

        .balign 16
        .space  64
own_top:
        .space  64
stack_top:
