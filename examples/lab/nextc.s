# Made by elf2s of nextc.elf: 168 bytes, entry _start.
        .equ    __stack_top,0x80100000

        .text

_start:
_start.22:              # nextc.c:22  {
_start.23:              # nextc.c:23      __asm__("la sp,__stack_top; call main; slli a0,a0,16; li t0,0x3333; or a0,a0,t0; li t1,0x100000; sw a0,(t1)");
        la      sp,__stack_top
        jal     main
        slli    a0,a0,16
        li      t0,0x3333
        or      a0,a0,t0
        li      t1,0x100000
        sw      a0,0(t1)

square:
square.7:               # nextc.c:7  {
square.8:               # nextc.c:8      int result = n * n;
square.9:               # nextc.c:9      return result;
        mul     a0,a0,a0
        ret

main:
main.13:                # nextc.c:13  {
        addi    sp,sp,-16
        sw      ra,12(sp)
        sw      s0,8(sp)
main.14:                # nextc.c:14      int sum = 0;
main.15:                # nextc.c:15      for (int i = 0; i < 6; i++)
        li      s0,0                    # i
        li      a3,0                    # <retval>
        j       main.15.3
main.15.2:              # nextc.c:15      for (int i = 0; i < 6; i++)
        addi    s0,s0,1                 # i
main.15.3:              # nextc.c:15      for (int i = 0; i < 6; i++)
        li      a5,5
        blt     a5,s0,main.18           # i
main.16:                # nextc.c:16          if (table[i] & 1)
        lui     a5,%hi(table)
        slli    a4,s0,2                 # i
        addi    a5,a5,%lo(table)
        add     a5,a5,a4
        lw      a0,0(a5)                # table[i]
        andi    a5,a0,1
        beqz    a5,main.15.2
main.17:                # nextc.c:17              sum = square(table[i]);
        jal     square
        mv      a3,a0                   # <retval>
        j       main.15.2
main.18:                # nextc.c:18      return sum;
        mv      a0,a3                   # <retval>
        lw      ra,12(sp)
        lw      s0,8(sp)
        addi    sp,sp,16
        ret
        .space  4

        .rodata
table:
        .word   1,3,4,5,7,8
__tls_base:
__bss_end:
__bss_start:
__init_array_end:
__preinit_array_end:
__heap_start:
__init_array_start:
__preinit_array_start:
