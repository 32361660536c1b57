# It has a fault, which no_stack.s.commands finds: nobody sets sp, so the first push traps, and there is no
# handler.

        .equ    TRANSMIT,0x10000000
        .equ    HALT,0x100000

        la      a0,text
        call    print
        li      t0,HALT
        li      t1,0x5555               # halt with code 0
        sw      t1,(t0)

# Sends the text at a0, up to a zero.
print:  addi    sp,sp,-16
        sw      ra,12(sp)
1:      lbu     a1,(a0)
        beqz    a1,2f
        call    put
        addi    a0,a0,1
        j       1b
2:      lw      ra,12(sp)
        addi    sp,sp,16
        ret

# Sends the byte in a1.
put:    li      t0,TRANSMIT
        sw      a1,(t0)
        ret

text:   .asciz  "Hello, board\n"
