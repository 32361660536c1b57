# Made by elf2s of suite.elf: 445 bytes, entry _start.
        .equ    __stack_top,0x80100000

        .text

_start:
                        # suite.S:4          START
        li      gp,0
        la      t5,behind
        csrw    mtvec,t5
        la      sp,__stack_top

case_2:
                        # suite.S:6          RR_CASE(2, add, 0x00000003, 0x00000001, 0x00000002)
        li      a1,1
        li      a2,2
        add     a4,a1,a2
        li      t2,3
        li      gp,2
        bne     a4,t2,wrong

case_3:
                        # suite.S:7          RR_CASE(3, mulhu, 0x7fffc000, 0x80000000, 0xffff8000)
        li      a1,0x80000000
        li      a2,0xffff8000
        mulhu   a4,a1,a2
        li      t2,0x7fffc000
        li      gp,3
        bne     a4,t2,wrong

case_4:
                        # suite.S:8          RR_CASE(4, div, 0x80000000, 0x80000000, -1)
        li      a1,0x80000000
        li      a2,-1
        div     a4,a1,a2
        li      t2,0x80000000
        li      gp,4
        bne     a4,t2,wrong

case_5:
                        # suite.S:9          IMMEDIATE_CASE(5, srai, 0xf8000000, 0x80000000, 4)
        li      a3,0x80000000
        srai    a4,a3,4
        li      t2,0xf8000000
        li      gp,5
        bne     a4,t2,wrong

case_6:
                        # suite.S:10          LOAD_CASE(6, lh, 0x00000ff0, -2, third)
        la      a5,third
        lh      a4,-2(a5)
        li      t2,4080
        li      gp,6
        bne     a4,t2,wrong

case_7:
                        # suite.S:11          CASE(7, a0, SCALE * 4 + 1, li a0, 19; push a0, a0; pop a1; pop a0; slli a0, a0, 2; addi a0, a0, 1)
        li      a0,19
        addi    sp,sp,-4
        sw      a0,0(sp)
        addi    sp,sp,-4
        sw      a0,0(sp)
        lw      a1,0(sp)
        addi    sp,sp,4
        lw      a0,0(sp)
        addi    sp,sp,4
        slli    a0,a0,2
        addi    a0,a0,1
        li      t2,77
        li      gp,7
        bne     a0,t2,wrong

case_8:
        .word   -1
                        # suite.S:12          CASE(8, t3, 11, .word 0xffffffff; csrr t3, mcause; addi t3, t3, 9)
        csrr    t3,mcause
        addi    t3,t3,9
        li      t2,11
        li      gp,8
        bne     t3,t2,wrong

case_9:
                        # suite.S:13          CASE(9, t3, 10, li t3, 0; li t4, 0; 1: addi t4, t4, 1; add t3, t3, t4; li t5, 4; bltu t4, t5, 1b)
        li      t3,0
        li      t4,0
case_9.1:
        addi    t4,t4,1
        add     t3,t3,t4
        li      t5,4
        bltu    t4,t5,case_9.1
        li      t2,10
        li      gp,9
        bne     t3,t2,wrong
        la      a0,banner
        jal     print
                        # suite.S:16          END
        bne     zero,gp,right

wrong:
        mv      a0,gp
        j       halt

right:
        li      a0,0
        j       halt

print:
        li      t0,0x10000000
print.1:
        lbu     t1,0(a0)
        beqz    t1,print.2
        sb      t1,0(t0)
        addi    a0,a0,1
        j       print.1
print.2:
        ret

halt:
        li      t0,0x100000
        li      t1,0x5555
        beqz    a0,halt.1
        slli    t1,a0,16
        li      t2,0x3333
        or      t1,t1,t2
halt.1:
        sw      t1,0(t0)
        j       halt.1

behind:
        csrr    t4,mepc
        addi    t4,t4,4
        csrw    mepc,t4
        mret

        .rodata
banner:
        .asciz  "all cases\n"
        .space  1
__init_array_end:
__preinit_array_end:
__init_array_start:
__preinit_array_start:
        .space  12

        .data
table:
first:
        .byte   255
        .space  1
second:
        .byte   0,255,240,15
third:
        .byte   15,240
        .word   4660,table,halt,4660
        .word   table,halt,4660,table
        .word   halt
        .byte   1
