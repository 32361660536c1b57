# A trap handler: it prints a letter for the cause of each trap, A for 0, and goes on after the instruction.

        .equ    TRANSMIT,0x10000000
        .equ    HALT,0x100000

        la      sp,stack_top
        la      t0,handler
        csrw    mtvec,t0

        ecall                           # 11, L: a call from machine mode
        .word   0                       # 2, C: no instruction
        lw      t1,1(zero)              # 4, E: an address that isn't a multiple of 4
        lw      t1,(zero)               # 5, F: there is nothing at this address
        ebreak                          # 3, D: a breakpoint

        li      a0,'\n'
        call    put
        li      t0,HALT
        li      t1,0x5555               # halt with code 0
        sw      t1,(t0)

put:    li      t6,TRANSMIT             # prints the byte in a0
        sw      a0,(t6)
        ret

handler:
        addi    sp,sp,-12
        sw      ra,0(sp)
        sw      a0,4(sp)
        sw      t6,8(sp)
        csrr    a0,mcause
        addi    a0,a0,'A'
        call    put
        csrr    a0,mepc
        addi    a0,a0,4
        csrw    mepc,a0
        lw      ra,0(sp)
        lw      a0,4(sp)
        lw      t6,8(sp)
        addi    sp,sp,12
        mret

stack:  .space  64
stack_top:
