# A recursive function with a stack: the Fibonacci numbers, each printed in decimal by another recursive
# function.

        .equ    TRANSMIT,0x10000000
        .equ    HALT,0x100000
        .equ    LAST,16

        la      sp,stack_top
        li      s0,0
1:      mv      a0,s0
        call    fib
        call    print
        li      a0,'\n'
        call    put
        addi    s0,s0,1
        li      t0,LAST
        ble     s0,t0,1b
        li      t0,HALT
        li      t1,0x5555               # halt with code 0
        sw      t1,(t0)

# a0 becomes fib(a0)
fib:    li      t0,2
        bltu    a0,t0,1f
        addi    sp,sp,-12
        sw      ra,0(sp)
        sw      a0,4(sp)
        addi    a0,a0,-1
        call    fib
        sw      a0,8(sp)
        lw      a0,4(sp)
        addi    a0,a0,-2
        call    fib
        lw      t0,8(sp)
        add     a0,a0,t0
        lw      ra,0(sp)
        addi    sp,sp,12
1:      ret

# prints a0 in decimal: the digits before the last one, and then that one
print:  addi    sp,sp,-8
        sw      ra,0(sp)
        li      t0,10
        remu    t1,a0,t0
        sw      t1,4(sp)
        divu    a0,a0,t0
        beqz    a0,1f
        call    print
1:      lw      a0,4(sp)
        addi    a0,a0,'0'
        call    put
        lw      ra,0(sp)
        addi    sp,sp,8
        ret

# prints the byte in a0
put:    li      t0,TRANSMIT
        sw      a0,(t0)
        ret

        .balign 16
stack:  .space  1024
stack_top:
