# Stands before a submission: calls its `sum` on three tables, prints each result in hexadecimal, and halts. It has no
# local label (1:), so that a submission's own `1b` never finds one here.
        la      sp,harness_stack
        la      s0,harness_cases
        la      s1,harness_end
harness_call:
        lw      a0,0(s0)                # the address of a table,
        lw      a1,4(s0)                # and how many words it has
        call    sum
        call    harness_print
        addi    s0,s0,8
        bne     s0,s1,harness_call
harness_done:                           # only here may the board halt
        li      t0,0x100000
        li      t1,0x5555               # halt with code 0
        sw      t1,(t0)

harness_cases:
        .word   harness_a,3, harness_b,1, harness_b,0
harness_end:
harness_a:
        .word   5,7,-20
harness_b:
        .word   0x1000
        .balign 16
        .space  1024
harness_stack:
