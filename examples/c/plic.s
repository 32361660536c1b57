# Made by elf2s of plic.elf: 3836 bytes, entry _start.
        .equ    __stack_top,0x80100000

        .text

_start:
        la      t0,first_trap
        csrw    mtvec,t0
        la      sp,__stack_top
        la      tp,__tls_base
        call    board_init
        mv      a1,a0
        li      a0,1
        call    main
        tail    exit

first_trap:
        la      sp,__stack_top
        csrr    a0,mcause
        csrr    a1,mepc
        csrr    a2,mtval
        tail    board_trap

put:
put.17:                 # board.c:17  {
put.18:                 # board.c:18      (void)file;
put.19:                 # board.c:19      SERIAL_TRANSMIT = (uint8_t)c;
        li      a4,0x10000000
        sb      a0,0(a4)
put.20:                 # board.c:20      return (unsigned char)c;
        ret

get:
get.25:                 # board.c:25  {
        li      a5,0x10000000
get.26:                 # board.c:26      uint32_t byte;
get.27:                 # board.c:27      (void)file;
get.28:                 # board.c:28      do byte = SERIAL_RECEIVE; while (byte >> 31);
        lw      a0,4(a5)
        bltz    a0,get.26
get.29:                 # board.c:29      return byte == END_OF_INPUT ? _FDEV_EOF : (int)byte;
        li      a5,4
        bne     a0,a5,get.30
        li      a0,-2
get.30:                 # board.c:30  }
        ret

put_word:
put_word.62:            # board.c:62  {
put_word.63:            # board.c:63      put_text(name);
put_word.58:            # board.c:58      while (*text) SERIAL_TRANSMIT = (uint8_t)*text++;
        li      a4,0x10000000
put_word.58.2:          # board.c:58      while (*text) SERIAL_TRANSMIT = (uint8_t)*text++;
        lbu     a5,0(a0)
        bnez    a5,put_word.58.3
        lui     a3,%hi(text.0123456789abcdef)
        li      a4,28
        addi    a3,a3,%lo(text.0123456789abcdef)
        li      a0,0x10000000
        li      a2,-4
put_word.64:            # board.c:64      for (int shift = 28; shift >= 0; shift -= 4) SERIAL_TRANSMIT = (uint8_t)"0123456789abcdef"[word >> shift & 15];
        srl     a5,a1,a4
        andi    a5,a5,15
        add     a5,a3,a5
        lbu     a5,0(a5)
        addi    a4,a4,-4
        sb      a5,0(a0)
        bne     a4,a2,put_word.64
        ret
put_word.58.3:          # board.c:58      while (*text) SERIAL_TRANSMIT = (uint8_t)*text++;
        addi    a0,a0,1
        sb      a5,0(a4)
        j       put_word.58.2

board_init:
board_init.44:          # board.c:44  {
board_init.45:          # board.c:45      static char name[] = "program", *arguments[] = { name, NULL };
board_init.46:          # board.c:46      for (constructor **it = __preinit_array_start; it != __preinit_array_end; it++) (*it)();
        addi    sp,sp,-16
        sw      s0,8(sp)
        sw      s1,4(sp)
        lui     s0,%hi(__preinit_array_start)
        lui     s1,%hi(__preinit_array_end)
        sw      ra,12(sp)
        addi    s0,s0,%lo(__preinit_array_start)
        addi    s1,s1,%lo(__preinit_array_end)
board_init.46.2:        # board.c:46      for (constructor **it = __preinit_array_start; it != __preinit_array_end; it++) (*it)();
        bne     s0,s1,board_init.46.3
        lui     s0,%hi(__init_array_start)
        lui     s1,%hi(__init_array_end)
        addi    s0,s0,%lo(__init_array_start)
        addi    s1,s1,%lo(__init_array_end)
board_init.47:          # board.c:47      for (constructor **it = __init_array_start; it != __init_array_end; it++) (*it)();
        bne     s0,s1,board_init.47.2
board_init.48:          # board.c:48      return arguments;
        lw      ra,12(sp)
        lw      s0,8(sp)
        lui     a0,%hi(arguments.1)
        lw      s1,4(sp)
        addi    a0,a0,%lo(arguments.1)
        addi    sp,sp,16
        ret
board_init.46.3:        # board.c:46      for (constructor **it = __preinit_array_start; it != __preinit_array_end; it++) (*it)();
        lw      a5,0(s0)
        addi    s0,s0,4
        jalr    a5
        j       board_init.46.2
board_init.47.2:        # board.c:47      for (constructor **it = __init_array_start; it != __init_array_end; it++) (*it)();
        lw      a5,0(s0)
        addi    s0,s0,4
        jalr    a5
        j       board_init.47

_exit:
_exit.52:               # board.c:52  {
        beqz    a0,_exit.53.3
        li      a5,0x3000
        slli    a0,a0,16
        addi    a5,a5,819
        or      a0,a0,a5
_exit.53.2:             # board.c:53      for (;;) HALT = code ? (uint32_t)code << 16 | 0x3333 : 0x5555;
        li      a5,0x100000
_exit.53:               # board.c:53      for (;;) HALT = code ? (uint32_t)code << 16 | 0x3333 : 0x5555;
        sw      a0,0(a5)
        j       _exit.53
_exit.53.3:
        li      a0,0x5555
        j       _exit.53.2

board_trap:
board_trap.68:          # board.c:68  {
board_trap.69:          # board.c:69      put_word("\ntrap cause=", cause);
        addi    sp,sp,-16
        sw      s0,8(sp)
        sw      s2,0(sp)
        mv      s0,a0
        mv      s2,a1
        mv      a1,a0
        lui     a0,%hi(text.trap_cause)
        addi    a0,a0,%lo(text.trap_cause)
        sw      ra,12(sp)
        sw      s1,4(sp)
        mv      s1,a2
        jal     put_word
board_trap.70:          # board.c:70      put_word(" epc=", epc);
        lui     a0,%hi(text.epc)
        mv      a1,s2
        addi    a0,a0,%lo(text.epc)
        jal     put_word
board_trap.71:          # board.c:71      put_word(" tval=", tval);
        lui     a0,%hi(text.tval)
        mv      a1,s1
        addi    a0,a0,%lo(text.tval)
        jal     put_word
board_trap.72:          # board.c:72      put_text("\n");
board_trap.58:          # board.c:58      while (*text) SERIAL_TRANSMIT = (uint8_t)*text++;
        lui     a5,%hi(text)
        addi    a5,a5,%lo(text)
        li      a3,0x10000000
board_trap.58.2:        # board.c:58      while (*text) SERIAL_TRANSMIT = (uint8_t)*text++;
        lbu     a4,0(a5)
        bnez    a4,board_trap.58.3
board_trap.73:          # board.c:73      _exit(128 + (int)(cause & 31));
        andi    a0,s0,31
        addi    a0,a0,128
        jal     _exit
board_trap.58.3:        # board.c:58      while (*text) SERIAL_TRANSMIT = (uint8_t)*text++;
        addi    a5,a5,1
        sb      a4,0(a3)
        j       board_trap.58.2

handler:
handler.12:             # plic.c:12  {
        addi    sp,sp,-32
        sw      a1,28(sp)
        sw      a2,24(sp)
        sw      a3,20(sp)
        sw      a4,16(sp)
        sw      a5,12(sp)
handler.13:             # plic.c:13      uint32_t source = PLIC_CLAIM;
        li      a5,0xc200000
        lw      a2,4(a5)                # source, [0xc200004]
handler.14:             # plic.c:14      if (source == SOURCE) {
        li      a5,24
        beq     a2,a5,handler.16        # source
handler.21:             # plic.c:21      PLIC_CLAIM = source;
        li      a5,0xc200000
        sw      a2,4(a5)                # source, [0xc200004]
        lw      a1,28(sp)
        lw      a2,24(sp)
        lw      a3,20(sp)
        lw      a4,16(sp)
        lw      a5,12(sp)
        addi    sp,sp,32
        mret
handler.18:             # plic.c:18              else lost++;
        lui     a4,%hi(lost)
        lw      a5,%lo(lost)(a4)        # lost
        addi    a5,a5,1                 # lost
        sw      a5,%lo(lost)(a4)        # lost
handler.16:             # plic.c:16          while (!((byte = SERIAL_RECEIVE) >> 31)) {
        li      a5,0x10000000
        lw      a4,4(a5)                # byte, [0x10000004]
        bltz    a4,handler.21           # byte
handler.17:             # plic.c:17              if (head - tail < SIZE) ring[head++ % SIZE] = (char)byte;
        lui     a5,%hi(head)
        lw      a5,%lo(head)(a5)        # head
        lui     a3,%hi(tail)
        lw      a3,%lo(tail)(a3)        # tail
        sub     a5,a5,a3                # head, tail
        li      a3,63
        bltu    a3,a5,handler.18
        lui     a3,%hi(head)
        lw      a5,%lo(head)(a3)        # head
        addi    a1,a5,1                 # head
        sw      a1,%lo(head)(a3)        # head
        andi    a3,a5,63                # head
        andi    a4,a4,255               # byte
        lui     a5,%hi(ring)
        addi    a5,a5,%lo(ring)
        add     a5,a5,a3
        sb      a4,0(a5)                # ring[_7]
        j       handler.16

next:
next.26:                # plic.c:26  {
next.27:                # plic.c:27      while (head == tail) __asm__ volatile ("wfi");
        j       next.27.3
next.27.2:              # plic.c:27      while (head == tail) __asm__ volatile ("wfi");
        wfi
next.27.3:              # plic.c:27      while (head == tail) __asm__ volatile ("wfi");
        lui     a5,%hi(head)
        lw      a4,%lo(head)(a5)        # head
        lui     a5,%hi(tail)
        lw      a5,%lo(tail)(a5)        # tail
        beq     a4,a5,next.27.2         # head, tail
next.28:                # plic.c:28      return ring[tail++ % SIZE];
        lui     a4,%hi(tail)
        lw      a5,%lo(tail)(a4)        # tail
        addi    a3,a5,1                 # tail
        sw      a3,%lo(tail)(a4)        # tail
        andi    a4,a5,63                # tail
        lui     a5,%hi(ring)
        addi    a5,a5,%lo(ring)
        add     a5,a5,a4
        lbu     a0,0(a5)                # ring[_5]
        ret

read_line:
read_line.33:           # plic.c:33  {
        addi    sp,sp,-16
        sw      ra,12(sp)
        sw      s0,8(sp)
        sw      s1,4(sp)
        sw      s2,0(sp)
        mv      s2,a0                   # line
        mv      s1,a1                   # room
read_line.34:           # plic.c:34      unsigned n = 0;
read_line.35:           # plic.c:35      for (int c; (c = next()) != '\n'; )
        li      s0,0                    # <retval>
read_line.35.2:         # plic.c:35      for (int c; (c = next()) != '\n'; )
        jal     next
        li      a5,10
        beq     a0,a5,read_line.37      # c
read_line.36:           # plic.c:36          if (n + 1 < room) line[n++] = (char)c;
        addi    a5,s0,1                 # <retval>
        bgeu    a5,s1,read_line.35.2    # room
        add     s0,s2,s0                # <retval>, line
        sb      a0,0(s0)                # c
        mv      s0,a5                   # <retval>
        j       read_line.35.2
read_line.37:           # plic.c:37      line[n] = 0;
        add     s2,s2,s0                # <retval>, line
        sb      zero,0(s2)
read_line.38:           # plic.c:38      return n;
        mv      a0,s0                   # <retval>
        lw      ra,12(sp)
        lw      s0,8(sp)
        lw      s1,4(sp)
        lw      s2,0(sp)
        addi    sp,sp,16
        ret

main:
main.42:                # plic.c:42  {
        addi    sp,sp,-64
        sw      ra,60(sp)
        sw      s0,56(sp)
main.43:                # plic.c:43      char line[40];
main.44:                # plic.c:44      csr_write(mtvec, handler);
        lui     a5,%hi(handler)
        addi    a5,a5,%lo(handler)
        csrw    mtvec,a5
main.45:                # plic.c:45      PLIC_PRIORITY(SOURCE) = 1;
        li      a5,0xc000000
        li      a4,1
        sw      a4,96(a5)               # [0xc000060]
main.46:                # plic.c:46      PLIC_ENABLE = 1u << SOURCE;
        li      a5,0xc002000
        li      a4,0x1000000
        sw      a4,0(a5)                # [0xc002000]
main.47:                # plic.c:47      PLIC_THRESHOLD = 0;
        li      a5,0xc200000
        sw      zero,0(a5)              # [0xc200000]
main.48:                # plic.c:48      csr_set(mie, MI_EXTERNAL);
        li      a5,2048
        csrs    mie,a5
main.49:                # plic.c:49      csr_set(mstatus, MSTATUS_MIE);
        csrsi   mstatus,8
        j       main.50
main.53.2:              # plic.c:53          for (unsigned i = 0; i < n; i++) line[i] = (char)toupper((unsigned char)line[i]);
        addi    a5,a4,48                # i
        add     a5,a5,sp
        sb      a3,-40(a5)              # line[i]
main.53:                # plic.c:53          for (unsigned i = 0; i < n; i++) line[i] = (char)toupper((unsigned char)line[i]);
        addi    a4,a4,1                 # i
main.53.3:              # plic.c:53          for (unsigned i = 0; i < n; i++) line[i] = (char)toupper((unsigned char)line[i]);
        bgeu    a4,s0,main.54           # i, n
        addi    a5,a4,48                # i
        add     a5,a5,sp
        lbu     a3,-40(a5)              # line[i]
                        # ctype.h:129  static __inline char __ctype_lookup(int c) { return (__CTYPE_PTR + 1)[c]; }
        lui     a5,%hi(_ctype_+1)
        addi    a5,a5,%lo(_ctype_+1)
        add     a5,a3,a5
        lbu     a5,0(a5)
        andi    a5,a5,3
        li      a2,2
        bne     a5,a2,main.53.2
        addi    a3,a3,-32
        j       main.53.2
main.54:                # plic.c:54          printf("%u: %s\n", n, line);
        addi    a2,sp,8
        mv      a1,s0                   # n
        lui     a0,%hi(text.u_s)
        addi    a0,a0,%lo(text.u_s)
        jal     printf
main.50:                # plic.c:50      for (;;) {
main.51:                # plic.c:51          unsigned n = read_line(line, sizeof line);
        li      a1,40
        addi    a0,sp,8
        jal     read_line
        mv      s0,a0                   # n
main.52:                # plic.c:52          if (!strcmp(line, "quit")) break;
        lui     a1,%hi(text.quit)
        addi    a1,a1,%lo(text.quit)
        addi    a0,sp,8
        jal     strcmp
        beqz    a0,main.56
        li      a4,0                    # i
        j       main.53.3
main.56:                # plic.c:56      printf("lost %u\n", lost);
        lui     a5,%hi(lost)
        lw      a1,%lo(lost)(a5)        # lost
        lui     a0,%hi(text.lost_u)
        addi    a0,a0,%lo(text.lost_u)
        jal     printf
main.57:                # plic.c:57      return 0;
        li      a0,0
        lw      ra,60(sp)
        lw      s0,56(sp)
        addi    sp,sp,64
        ret

strcmp:
        lbu     a2,0(a0)
        lbu     a3,0(a1)
        addi    a0,a0,1
        addi    a1,a1,1
        bne     a2,a3,strcmp.1
        bnez    a2,strcmp
strcmp.1:
        sub     a0,a2,a3
        ret

exit:
        jal     t0,__riscv_save_1
        li      a5,0
        mv      s0,a0
        beqz    a5,exit.1
        li      a1,0
        auipc   ra,0x0                  # %pcrel_hi(0x0)
        jalr    zero
exit.1:
        jal     __libc_fini_array
        mv      a0,s0
        jal     _exit

printf:
        addi    sp,sp,-64
        sw      a5,52(sp)
        lui     a5,%hi(stdout)
        sw      a1,36(sp)
        mv      a1,a0
        lw      a0,%lo(stdout)(a5)
        sw      a2,40(sp)
        addi    a2,sp,36
        sw      ra,28(sp)
        sw      a3,44(sp)
        sw      a4,48(sp)
        sw      a6,56(sp)
        sw      a7,60(sp)
        sw      a2,12(sp)
        jal     vfprintf
        lw      ra,28(sp)
        addi    sp,sp,64
        ret

__ultoa_invert:
        andi    a5,a2,512
        mv      a4,a0
        li      a3,39
        mv      a0,a1
        beqz    a5,__ultoa_invert.1
        andi    a2,a2,-513
        li      a3,7
__ultoa_invert.1:
        li      a6,9
__ultoa_invert.2:
        remu    a5,a4,a2
        mv      a1,a4
        andi    a5,a5,255
        divu    a4,a4,a2
        bgeu    a6,a5,__ultoa_invert.3
        add     a5,a5,a3
        andi    a5,a5,255
__ultoa_invert.3:
        addi    a0,a0,1
        addi    a5,a5,48
        sb      a5,-1(a0)
        bgeu    a1,a2,__ultoa_invert.2
        ret

vfprintf:
__i_vfprintf:
        jal     t0,__riscv_save_12
        lbu     a5,4(a0)
        lw      s5,8(a0)
        addi    sp,sp,-32
        andi    a5,a5,2
        beqz    a5,vfprintf.42
        mv      s4,a0
        mv      s1,a2
        li      s2,0
        li      s8,37
vfprintf.1:
        lbu     s9,0(a1)
        beqz    s9,vfprintf.43
        addi    s7,a1,1
        bne     s9,s8,vfprintf.2
        lbu     s9,1(a1)
        addi    s7,a1,2
        bne     s9,s8,vfprintf.5
vfprintf.2:
        addi    s2,s2,1
vfprintf.3:
        mv      a1,s4
        mv      a0,s9
        jalr    s5
        bltz    a0,vfprintf.42
vfprintf.4:
        mv      a1,s7
        j       vfprintf.1
vfprintf.5:
        lui     a4,%hi(rodata.16c)
        li      s11,0
        li      s3,0
        li      s0,0
        li      a2,31
        li      a3,108
        li      a1,116
        li      a0,122
        li      a6,104
        li      a7,106
        li      t1,76
        li      t3,42
        li      t4,46
        li      t5,127
        li      t6,16
        li      t0,9
        addi    a4,a4,%lo(rodata.16c)
vfprintf.6:
        bltu    a2,s0,vfprintf.15
        addi    a5,s9,-32
        andi    a5,a5,255
        bltu    t6,a5,vfprintf.7
        slli    a5,a5,2
        add     a5,a5,a4
        lw      a5,0(a5)
        jr      a5
vfprintf.7:
        addi    a5,s9,-48
        andi    a5,a5,255
        bltu    t0,a5,vfprintf.16
vfprintf.8:
        li      t2,10
        mul     t2,s3,t2
        ori     s0,s0,32
        add     s3,t2,a5
        j       vfprintf.10
vfprintf.9:
        ori     s0,s0,1
vfprintf.10:
        lbu     s9,0(s7)
        addi    s7,s7,1
        bnez    s9,vfprintf.6
        j       vfprintf.20
vfprintf.11:
        ori     s0,s0,2
vfprintf.12:
        ori     s0,s0,4
        j       vfprintf.10
vfprintf.13:
        ori     s0,s0,8
        j       vfprintf.10
vfprintf.14:
        ori     s0,s0,16
        j       vfprintf.10
vfprintf.15:
        bltu    t5,s0,vfprintf.19
        addi    t2,s9,-48
        andi    t2,t2,255
        li      a5,9
        bltu    a5,t2,vfprintf.16
        andi    s6,s0,64
        mv      a5,t2
        beqz    s6,vfprintf.8
        li      a5,10
        mul     a5,s11,a5
        add     s11,a5,t2
        j       vfprintf.10
vfprintf.16:
        bne     s9,t3,vfprintf.18
        lw      a5,0(s1)
        addi    t2,s1,4
        andi    s1,s0,64
        bnez    s1,vfprintf.32
        bltz    a5,vfprintf.17
        ori     s0,s0,32
        mv      s1,t2
        mv      s3,a5
        j       vfprintf.10
vfprintf.17:
        neg     s3,a5
        ori     s0,s0,40
        mv      s1,t2
        j       vfprintf.10
vfprintf.18:
        bne     s9,t4,vfprintf.19
        andi    a5,s0,64
        bnez    a5,vfprintf.43
        ori     s0,s0,64
        j       vfprintf.10
vfprintf.19:
        beq     s9,a3,vfprintf.27
        bltu    a3,s9,vfprintf.26
        beq     s9,a6,vfprintf.29
        beq     s9,a7,vfprintf.31
        beq     s9,t1,vfprintf.31
vfprintf.20:
        bgez    s11,vfprintf.21
        andi    s0,s0,-65
        slli    s0,s0,16
        srli    s0,s0,16
        li      s11,0
vfprintf.21:
        ori     a4,s9,32
        addi    a5,a4,-101
        andi    a5,a5,255
        li      a3,2
        bgeu    a3,a5,vfprintf.22
        li      a5,97
        bne     a4,a5,vfprintf.33
vfprintf.22:
        addi    s1,s1,7
        andi    s1,s1,-8
        lui     s6,%hi(text.float)
        addi    s1,s1,8
        li      s9,7
        addi    s6,s6,%lo(text.float)
vfprintf.23:
        andi    s0,s0,8
        beqz    s0,vfprintf.40
vfprintf.24:
        li      s0,0
vfprintf.25:
        bne     s9,s0,vfprintf.41
        add     s0,s2,s9
        sub     s3,s3,s9
        j       vfprintf.79
vfprintf.26:
        beq     s9,a1,vfprintf.10
        beq     s9,a0,vfprintf.10
        j       vfprintf.20
vfprintf.27:
        andi    a5,s0,128
        beqz    a5,vfprintf.28
        ori     s0,s0,512
vfprintf.28:
        ori     s0,s0,128
        j       vfprintf.10
vfprintf.29:
        andi    a5,s0,256
        beqz    a5,vfprintf.30
        ori     s0,s0,512
vfprintf.30:
        ori     s0,s0,256
        j       vfprintf.10
vfprintf.31:
        ori     s0,s0,640
        j       vfprintf.10
vfprintf.32:
        mv      s1,t2
        mv      s11,a5
        j       vfprintf.10
vfprintf.33:
        addi    a5,s9,-99
        andi    a5,a5,255
        li      a3,18
        bltu    a3,a5,vfprintf.59
        lui     a3,%hi(rodata.1b0)
        slli    a5,a5,2
        addi    a3,a3,%lo(rodata.1b0)
        add     a5,a5,a3
        lw      a5,0(a5)
        jr      a5
vfprintf.34:
        lw      a5,0(s1)
        li      s9,1
        addi    s1,s1,4
        sb      a5,20(sp)
        addi    s6,sp,20
        j       vfprintf.23
vfprintf.35:
        lw      s6,0(s1)
        addi    s10,s1,4
        bnez    s6,vfprintf.36
        lui     s6,%hi(text.null)
        addi    s6,s6,%lo(text.null)
vfprintf.36:
        andi    a5,s0,64
        li      a1,-1
        beqz    a5,vfprintf.37
        mv      a1,s11
vfprintf.37:
        mv      a0,s6
        jal     strnlen
        mv      s9,a0
        mv      s1,s10
        j       vfprintf.23
vfprintf.38:
        mv      a1,s4
        li      a0,32
        jalr    s5
        bltz    a0,vfprintf.42
        addi    s0,s0,-1
vfprintf.39:
        bltu    s9,s0,vfprintf.38
        add     s2,s3,s2
        sub     s2,s2,s0
        mv      s3,s0
        j       vfprintf.24
vfprintf.40:
        mv      s0,s3
        j       vfprintf.39
vfprintf.41:
        add     a5,s6,s0
        lbu     a0,0(a5)
        mv      a1,s4
        addi    s0,s0,1
        jalr    s5
        bgez    a0,vfprintf.25
vfprintf.42:
        li      s2,-1
vfprintf.43:
        mv      a0,s2
        addi    sp,sp,32
        j       __riscv_restore_12
vfprintf.44:
        andi    a5,s0,128
        beqz    a5,vfprintf.49
        andi    a5,s0,512
        addi    s6,s1,4
        beqz    a5,vfprintf.45
        addi    s1,s1,7
        andi    s1,s1,-8
        addi    s6,s1,8
vfprintf.45:
        lw      a0,0(s1)
vfprintf.46:
        andi    s1,s0,-17
        slli    s1,s1,16
        srli    s1,s1,16
        bgez    a0,vfprintf.51
        neg     a0,a0
        ori     s1,s1,1024
vfprintf.47:
        addi    s0,sp,20
        li      a2,10
vfprintf.48:
        mv      a1,s0
        jal     __ultoa_invert
        andi    a5,s1,64
        sub     s0,a0,s0
        beqz    a5,vfprintf.57
        andi    a4,s1,-2
        slli    a4,a4,16
        srli    a4,a4,16
        bge     s0,s11,vfprintf.67
        beqz    s9,vfprintf.66
        andi    a5,s1,16
        bnez    a5,vfprintf.68
        mv      s10,s11
        mv      s1,a4
        j       vfprintf.52
vfprintf.49:
        andi    a5,s0,256
        lw      a0,0(s1)
        addi    s6,s1,4
        beqz    a5,vfprintf.46
        andi    a5,s0,512
        beqz    a5,vfprintf.50
        slli    a0,a0,24
        srai    a0,a0,24
        j       vfprintf.46
vfprintf.50:
        slli    a0,a0,16
        srai    a0,a0,16
        j       vfprintf.46
vfprintf.51:
        bnez    a0,vfprintf.47
        andi    a5,s0,64
        beqz    a5,vfprintf.47
        bnez    s11,vfprintf.47
        andi    s1,s0,-18
        slli    s1,s1,16
        srli    s1,s1,16
        li      s0,0
        li      s10,0
vfprintf.52:
        andi    a5,s1,1030
        beqz    a5,vfprintf.70
        addi    s10,s10,1
        li      a5,0
        j       vfprintf.70
vfprintf.53:
        andi    s0,s0,-17
        slli    s0,s0,16
        srli    s0,s0,16
        li      a2,10
vfprintf.54:
        andi    a5,s0,128
        beqz    a5,vfprintf.62
        andi    a5,s0,512
        addi    s6,s1,4
        beqz    a5,vfprintf.55
        addi    s1,s1,7
        andi    s1,s1,-8
        addi    s6,s1,8
vfprintf.55:
        lw      a0,0(s1)
vfprintf.56:
        bnez    a0,vfprintf.64
        andi    s1,s0,-23
        slli    s1,s1,16
        andi    a5,s0,64
        srli    s1,s1,16
        beqz    a5,vfprintf.65
        bnez    s11,vfprintf.65
        andi    s1,s0,-24
        slli    s1,s1,16
        srli    s1,s1,16
        li      s0,0
vfprintf.57:
        andi    a5,s1,16
        beqz    a5,vfprintf.72
        addi    s10,s0,1
        beqz    s9,vfprintf.70
        mv      a3,s0
        j       vfprintf.69
vfprintf.58:
        ori     s0,s0,16
        li      a2,16
        li      s9,120
        j       vfprintf.54
vfprintf.59:
        li      a5,120
        bne     a4,a5,vfprintf.60
        li      a5,88
        li      a2,16
        bne     s9,a5,vfprintf.54
        li      a2,528
        j       vfprintf.54
vfprintf.60:
        mv      a1,s4
        li      a0,37
        jalr    s5
        bltz    a0,vfprintf.42
        addi    s2,s2,2
        j       vfprintf.3
vfprintf.61:
        li      a2,8
        li      s9,0
        j       vfprintf.54
vfprintf.62:
        andi    a5,s0,256
        lw      a0,0(s1)
        addi    s6,s1,4
        beqz    a5,vfprintf.56
        andi    a5,s0,512
        beqz    a5,vfprintf.63
        andi    a0,a0,255
        j       vfprintf.56
vfprintf.63:
        slli    a0,a0,16
        srli    a0,a0,16
        j       vfprintf.56
vfprintf.64:
        andi    s0,s0,-7
        slli    s1,s0,16
        srli    s1,s1,16
vfprintf.65:
        addi    s0,sp,20
        j       vfprintf.48
vfprintf.66:
        andi    s1,s1,-18
        slli    s1,s1,16
        srli    s1,s1,16
        mv      s10,s11
        j       vfprintf.52
vfprintf.67:
        mv      s1,a4
        j       vfprintf.57
vfprintf.68:
        mv      a3,s0
        mv      s1,a4
        mv      s0,s11
vfprintf.69:
        addi    s10,s0,2
        mv      s0,a3
vfprintf.70:
        andi    a4,s1,8
        bnez    a4,vfprintf.75
        andi    a4,s1,1
        beqz    a4,vfprintf.71
        mv      s11,s0
        bge     s10,s3,vfprintf.71
        sub     s10,s3,s10
        add     s11,s10,s0
        mv      s10,s3
vfprintf.71:
        mv      a4,s10
        j       vfprintf.74
vfprintf.72:
        mv      s10,s0
        j       vfprintf.52
vfprintf.73:
        mv      a1,s4
        li      a0,32
        sw      a5,12(sp)
        sw      a4,8(sp)
        jalr    s5
        bltz    a0,vfprintf.42
        lw      a4,8(sp)
        lw      a5,12(sp)
        addi    a4,a4,1
vfprintf.74:
        blt     a4,s3,vfprintf.73
        sub     s10,s2,s10
        add     s2,s10,a4
        mv      s10,a4
vfprintf.75:
        beqz    a5,vfprintf.82
        mv      a1,s4
        li      a0,48
        jalr    s5
        bltz    a0,vfprintf.42
        bnez    s9,vfprintf.80
        addi    s2,s2,1
vfprintf.76:
        add     s11,s2,s11
vfprintf.77:
        sub     a5,s11,s2
        blt     s0,a5,vfprintf.85
        mv      s1,s0
vfprintf.78:
        bnez    s1,vfprintf.86
        add     s0,s0,s2
        sub     s3,s3,s10
        mv      s1,s6
vfprintf.79:
        mv      s2,s0
        add     s3,s0,s3
        j       vfprintf.88
vfprintf.80:
        addi    s2,s2,2
        mv      a1,s4
        mv      a0,s9
vfprintf.81:
        jalr    s5
        bgez    a0,vfprintf.76
        j       vfprintf.42
vfprintf.82:
        andi    a5,s1,1030
        beqz    a5,vfprintf.76
        andi    a5,s1,2
        li      a0,32
        beqz    a5,vfprintf.83
        li      a0,43
vfprintf.83:
        andi    s1,s1,1024
        beqz    s1,vfprintf.84
        li      a0,45
vfprintf.84:
        addi    s2,s2,1
        mv      a1,s4
        j       vfprintf.81
vfprintf.85:
        mv      a1,s4
        li      a0,48
        addi    s2,s2,1
        jalr    s5
        bgez    a0,vfprintf.77
        j       vfprintf.42
vfprintf.86:
        addi    s1,s1,-1
        addi    a5,sp,20
        add     a5,a5,s1
        lbu     a0,0(a5)
        mv      a1,s4
        jalr    s5
        bgez    a0,vfprintf.78
        j       vfprintf.42
vfprintf.87:
        mv      a1,s4
        li      a0,32
        addi    s2,s2,1
        jalr    s5
        bltz    a0,vfprintf.42
vfprintf.88:
        sub     a5,s3,s2
        bgtz    a5,vfprintf.87
        j       vfprintf.4

__libc_fini_array:
        jal     t0,__riscv_save_1
        li      a4,0
        li      s0,0
        sub     s0,s0,a4
        srai    s0,s0,2
        li      s1,0
__libc_fini_array.1:
        bnez    s0,__libc_fini_array.3
        li      a5,0
        beqz    a5,__libc_fini_array.2
        auipc   ra,0x0                  # %pcrel_hi(0x0)
        jalr    zero
__libc_fini_array.2:
        j       __riscv_restore_3
__libc_fini_array.3:
        addi    s0,s0,-1
        slli    a5,s0,2
        add     a5,s1,a5
        lw      a5,0(a5)
        jalr    a5
        j       __libc_fini_array.1

strnlen:
        add     a1,a0,a1
        mv      a5,a0
strnlen.1:
        beq     a5,a1,strnlen.2
        lbu     a4,0(a5)
        bnez    a4,strnlen.3
strnlen.2:
        sub     a0,a5,a0
        ret
strnlen.3:
        addi    a5,a5,1
        j       strnlen.1

__riscv_save_12:
        addi    sp,sp,-64
        li      t1,0
        sw      s11,12(sp)
        j       __riscv_save_8.1

__riscv_save_8:
__riscv_save_11:
__riscv_save_9:
__riscv_save_10:
        addi    sp,sp,-64
        li      t1,-16
__riscv_save_8.1:
        sw      s10,16(sp)
        sw      s9,20(sp)
        sw      s8,24(sp)
        sw      s7,28(sp)
        j       __riscv_save_7.1

__riscv_save_7:
__riscv_save_4:
__riscv_save_6:
__riscv_save_5:
        addi    sp,sp,-64
        li      t1,-32
__riscv_save_7.1:
        sw      s6,32(sp)
        sw      s5,36(sp)
        sw      s4,40(sp)
        sw      s3,44(sp)
        sw      s2,48(sp)
        sw      s1,52(sp)
        sw      s0,56(sp)
        sw      ra,60(sp)
        sub     sp,sp,t1
        jr      t0

__riscv_save_1:
__riscv_save_3:
__riscv_save_2:
__riscv_save_0:
        addi    sp,sp,-16
        sw      s2,0(sp)
        sw      s1,4(sp)
        sw      s0,8(sp)
        sw      ra,12(sp)
        jr      t0

__riscv_restore_12:
        lw      s11,12(sp)
        addi    sp,sp,16

__riscv_restore_10:
__riscv_restore_11:
__riscv_restore_8:
__riscv_restore_9:
        lw      s10,0(sp)
        lw      s9,4(sp)
        lw      s8,8(sp)
        lw      s7,12(sp)
        addi    sp,sp,16

__riscv_restore_5:
__riscv_restore_6:
__riscv_restore_4:
__riscv_restore_7:
        lw      s6,0(sp)
        lw      s5,4(sp)
        lw      s4,8(sp)
        lw      s3,12(sp)
        addi    sp,sp,16

__riscv_restore_3:
__riscv_restore_2:
__riscv_restore_0:
__riscv_restore_1:
        lw      s2,0(sp)
        lw      s1,4(sp)
        lw      s0,8(sp)
        lw      ra,12(sp)
        addi    sp,sp,16
        ret
        .space  4

        .rodata
text.0123456789abcdef:
        .asciz  "0123456789abcdef"
        .space  3
text:
        .asciz  "\n"
        .space  2
text.trap_cause:
        .asciz  "\ntrap cause="
        .space  3
text.epc:
        .asciz  " epc="
        .space  2
text.tval:
        .asciz  " tval="
        .space  1
stdout:
        .word   serial
text.quit:
        .asciz  "quit"
        .space  3
text.u_s:
        .asciz  "%u: %s\n"
text.lost_u:
        .asciz  "lost %u\n"
        .space  3
_ctype_:
        .byte   0,32,32,32,32,32,32,32,32,32,40,40,40,40,40,32
        .byte   32,32,32,32,32,32,32,32,32,32,32,32,32,32,32,32
        .byte   32,136,16,16,16,16,16,16,16,16,16,16,16,16,16,16
        .byte   16,4,4,4,4,4,4,4,4,4,4,16,16,16,16,16
        .byte   16,16,65,65,65,65,65,65,1,1,1,1,1,1,1,1
        .byte   1,1,1,1,1,1,1,1,1,1,1,1,16,16,16,16
        .byte   16,16,66,66,66,66,66,66,2,2,2,2,2,2,2,2
        .byte   2,2,2,2,2,2,2,2,2,2,2,2,16,16,16,16
        .byte   32
        .space  128
        .space  3
text.null:
        .asciz  "(null)"
        .space  1
text.float:
        .asciz  "*float*"
rodata.16c:
        .word   vfprintf.12,vfprintf.7,vfprintf.7,vfprintf.14
        .word   vfprintf.7,vfprintf.7,vfprintf.7,vfprintf.10
        .word   vfprintf.7,vfprintf.7,vfprintf.7,vfprintf.11
        .word   vfprintf.7,vfprintf.13,vfprintf.7,vfprintf.7
        .word   vfprintf.9
rodata.1b0:
        .word   vfprintf.34,vfprintf.44,vfprintf.59,vfprintf.59
        .word   vfprintf.59,vfprintf.59,vfprintf.44,vfprintf.59
        .word   vfprintf.59,vfprintf.59,vfprintf.59,vfprintf.59
        .word   vfprintf.61,vfprintf.58,vfprintf.59,vfprintf.59
        .word   vfprintf.35,vfprintf.59,vfprintf.53
__init_array_end:
__preinit_array_end:
__init_array_start:
__preinit_array_start:
        .space  4

        .data
name.0:
        .asciz  "program"
arguments.1:
        .word   name.0,0
serial:
        .word   0,3,put,get,0
        .space  4

        .bss
lost:
__tls_base:
__bss_start:
        .space  4
tail:
        .space  4
head:
        .space  4
ring:
        .space  64
        .space  4
__bss_end:
__heap_start:
