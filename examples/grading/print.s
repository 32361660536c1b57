# Sends a0 as eight hexadecimal digits, and a line feed.
harness_print:
        li      t0,0x10000000
        li      t1,8
harness_digit:
        srli    t2,a0,28
        slli    a0,a0,4
        addi    t2,t2,'0'
        li      t3,'9'
        bleu    t2,t3,harness_send
        addi    t2,t2,'a'-'9'-1
harness_send:
        sw      t2,(t0)
        addi    t1,t1,-1
        bnez    t1,harness_digit
        li      t2,'\n'
        sw      t2,(t0)
        ret
