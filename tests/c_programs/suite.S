/* Cases in the manner of riscv-tests, in GNU's language: macros of C and of the assembler, includes, repetitions. */
#include "cases.h"
        .include "stack.inc"
        START
        la      sp, __stack_top
        RR_CASE(2, add, 0x00000003, 0x00000001, 0x00000002)
        RR_CASE(3, mulhu, 0x7fffc000, 0x80000000, 0xffff8000)
        RR_CASE(4, div, 0x80000000, 0x80000000, -1)
        IMMEDIATE_CASE(5, srai, 0xf8000000, 0x80000000, 4)
        LOAD_CASE(6, lh, 0x00000ff0, -2, third)
        CASE(7, a0, SCALE * 4 + 1, li a0, 19; push a0, a0; pop a1; pop a0; slli a0, a0, 2; addi a0, a0, 1)
        CASE(8, t3, 11, .word 0xffffffff; csrr t3, mcause; addi t3, t3, 9)
        CASE(9, t3, 10, li t3, 0; li t4, 0; 1: addi t4, t4, 1; add t3, t3, t4; li t5, 4; bltu t4, t5, 1b)
        la      a0, banner
        call    print
        END
print:  li      t0, SERIAL_ADDRESS
1:      lbu     t1, 0(a0)
        beqz    t1, 2f
        sb      t1, 0(t0)
        addi    a0, a0, 1
        j       1b
2:      ret
halt:   li      t0, HALT_ADDRESS
        li      t1, 0x5555
        beqz    a0, 1f
        slli    t1, a0, 16
        li      t2, 0x3333
        or      t1, t1, t2
1:      sw      t1, 0(t0)
        j       1b
        .align  2
behind:                         /* goes on behind the instruction that trapped */
        csrr    t4, mepc
        addi    t4, t4, 4
        csrw    mepc, t4
        mret
        .section .rodata
banner: .asciz  "all cases\n"
        .data
        .align  4
table:
first:  .half   0x00ff
second: .half   0xff00
        .half   0x0ff0
third:  .half   0xf00f
        .rept   3
        .word   0x1234, table, halt
        .endr
        .if     SCALE == 19
        .byte   1
        .else
        .byte   2
        .endif
        .section .bss
buffer: .skip   64
