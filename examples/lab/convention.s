# Four breaches of the calling convention, none of which stops the program.

        .equ    HALT,0x100000
        .equ    MSIP,0x2000000

        la      sp,top
        la      t0,soft
        csrw    mtvec,t0
        li      t0,8                    # the software interrupt of machine mode
        csrw    mie,t0
        csrsi   mstatus,8               # interrupts on

        li      s0,5
        call    double                  # s0 = 10?
        call    deep
        call    deep                    # the same again
        call    below
        li      t0,MSIP
        li      t1,1
        sw      t1,(t0)                 # an interrupt, here
        nop
        li      t0,HALT
        li      t1,0x5555               # halt with code 0
        sw      t1,(t0)

# it is right: it keeps what it uses
right:  addi    sp,sp,-8
        sw      ra,4(sp)
        sw      s0,(sp)
        li      s0,1
        lw      s0,(sp)
        lw      ra,4(sp)
        addi    sp,sp,8
        ret

# it changes s0, which is its caller's
double: add     s0,s0,s0
        ret

# it restores ra, and sp not wholly
deep:   addi    sp,sp,-8
        sw      ra,4(sp)
        call    right
        lw      ra,4(sp)
        addi    sp,sp,4
        ret

# it uses memory below sp
below:  sw      a0,-4(sp)
        ret

# a handler that changes t2
soft:   li      t2,MSIP
        sw      zero,(t2)
        mret

        .space  256
top:
