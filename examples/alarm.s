# A timer interrupt every hundred steps while mtime crosses 2^32. mtime and mtimecmp have 64 bits and are
# accessed by halves: they are read and written so that no half that is out of date counts.

        .equ    TRANSMIT,0x10000000
        .equ    HALT,0x100000
        .equ    MTIMECMP,0x2004000
        .equ    MTIME,0x200bff8
        .equ    PERIOD,100

        la      sp,stack_top
        la      t0,tick
        csrw    mtvec,t0
        li      t0,MTIME                # 350 steps before the low half begins anew
        li      t1,-350
        sw      t1,(t0)
        li      s0,5                    # ticks to come
        call    arm
        li      t0,0x80                 # the timer interrupt of machine mode
        csrw    mie,t0
        csrsi   mstatus,8               # interrupts on

wait:   wfi
        bnez    s0,wait

        csrci   mstatus,8               # interrupts off
        li      t0,TRANSMIT
        li      t1,'\n'
        sw      t1,(t0)
        li      t0,HALT
        li      t1,0x5555               # halt with code 0
        sw      t1,(t0)

# Returns mtime: its low half in a0, its high half in a1.
now:    li      t0,MTIME
1:      lw      a1,4(t0)
        lw      a0,(t0)
        lw      t1,4(t0)
        bne     t1,a1,1b                # the low half began anew in between: again
        ret

# Sets mtimecmp to a1:a0.
compare:
        li      t0,MTIMECMP
        li      t1,-1
        sw      t1,(t0)                 # no smaller than the old value
        sw      a1,4(t0)                # no smaller than the new value
        sw      a0,(t0)                 # the new value
        ret

# Asks for an interrupt after a period from now.
arm:    addi    sp,sp,-16
        sw      ra,12(sp)
        call    now
        addi    a0,a0,PERIOD
        sltiu   t0,a0,PERIOD            # whether the low half has a carry
        add     a1,a1,t0
        call    compare
        lw      ra,12(sp)
        addi    sp,sp,16
        ret

# Prints the high half of mtime as a digit, and arms the timer again. It saves what it changes.
tick:   addi    sp,sp,-32
        sw      ra,28(sp)
        sw      a0,24(sp)
        sw      a1,20(sp)
        sw      t0,16(sp)
        sw      t1,12(sp)
        call    now
        addi    a1,a1,'0'
        li      t0,TRANSMIT
        sw      a1,(t0)
        addi    s0,s0,-1
        call    arm
        lw      ra,28(sp)
        lw      a0,24(sp)
        lw      a1,20(sp)
        lw      t0,16(sp)
        lw      t1,12(sp)
        addi    sp,sp,32
        mret

        .balign 16
        .space  256
stack_top:
