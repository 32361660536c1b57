# Made by elf2s of stripped.elf: 368 bytes, entry 0x80000000.

        .text
        li      sp,0x80010000
        j       text.8
text.8:
        addi    sp,sp,-16
        sw      ra,12(sp)
        sw      s0,8(sp)
        sw      s1,4(sp)
        li      a6,0
        li      a0,0x80000148
        li      a1,10
        li      a2,2
        li      a3,0x80000170
        li      a4,32
        li      a5,44
        j       text.48
text.40:
        addi    a0,a0,1
        mv      a6,a7
text.48:
        lbu     t0,0(a0)
        addi    a7,t0,-48
        bgeu    a7,a1,text.7c
        addi    a7,a6,-1
        seqz    a7,a7
        sub     a7,a2,a7
text.60:
        beq     a7,a6,text.40
        slli    a6,a7,2
        add     a6,a6,a3
        lw      t0,0(a6)
        addi    t0,t0,1
        sw      t0,0(a6)
        j       text.40
text.7c:
        li      a7,0
        beq     t0,a4,text.60
        beq     t0,a5,text.60
        beqz    t0,text.94
        li      a7,1
        j       text.60
text.94:
        li      a0,0x80000000
        addi    s0,a0,368
        lw      a0,4(s0)
        call    text.dc
        li      s1,0x10000000
        li      a0,32
        sb      a0,0(s1)
        lw      a0,8(s0)
        call    text.dc
        li      a0,10
        sb      a0,0(s1)
        li      a0,0x5555
        li      a1,0x100000
text.d4:
        sw      a0,0(a1)
        j       text.d4
text.dc:
        addi    sp,sp,-16
        sw      ra,12(sp)
        sw      s0,8(sp)
        sw      s1,4(sp)
        li      s1,10
        mv      s0,a0
        bltu    a0,s1,text.110
        li      a0,0xcccccccd
        mulhu   a0,s0,a0
        srli    a0,a0,3
        call    text.dc
text.110:
        li      a0,0xcccccccd
        mulhu   a0,s0,a0
        srli    a0,a0,3
        mul     a0,a0,s1
        sub     a0,s0,a0
        ori     a0,a0,48
        li      a1,0x10000000
        sb      a0,0(a1)
        lw      ra,12(sp)
        lw      s0,8(sp)
        lw      s1,4(sp)
        addi    sp,sp,16
        ret

        .rodata
        .asciz  "7 boards, 31 sources and 1 serial port"
        .space  1

        .bss
        .space  12
