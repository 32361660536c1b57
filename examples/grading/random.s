# Stands before a submission: fills a table with words that nobody knows before the run, since rvgrade puts another
# number in place of the seed each time. It calls the submission's `sum` on three parts of the table, prints each result
# in hexadecimal, and halts.
        .equ    harness_seed,1
        la      sp,harness_stack
        la      s0,harness_table
        la      s1,harness_table_end
        li      s2,harness_seed
        li      s3,1103515245
harness_fill:
        mul     s2,s2,s3
        addi    s2,s2,123
        sw      s2,(s0)
        addi    s0,s0,4
        bne     s0,s1,harness_fill

        li      s2,1                    # one word, then five, then nine
        li      s3,9
harness_call:
        la      a0,harness_table
        mv      a1,s2
        call    sum
        call    harness_print
        addi    s2,s2,4
        ble     s2,s3,harness_call
harness_done:                           # only here may the board halt
        li      t0,0x100000
        li      t1,0x5555               # halt with code 0
        sw      t1,(t0)

harness_table:
        .space  36
harness_table_end:
        .balign 16
        .space  1024
harness_stack:
