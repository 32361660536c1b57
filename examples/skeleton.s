# A skeleton to begin with: the stack pointer, code that ends by halting, functions, and then the data.

        .equ    TRANSMIT,0x10000000
        .equ    HALT,0x100000

        la      sp,stack_top            # nobody else sets sp
        la      a0,text
        call    print
        li      t0,HALT
        li      t1,0x5555               # halt with code 0
        sw      t1,(t0)

# Sends the text at a0, up to a zero.
print:  li      t0,TRANSMIT
1:      lbu     t1,(a0)
        beqz    t1,2f
        sw      t1,(t0)
        addi    a0,a0,1
        j       1b
2:      ret

text:   .asciz  "Hello, board\n"
        .balign 16
        .space  1024
stack_top:
