# Made by elf2s of bob.elf: 3572 bytes, entry _start.
        .equ    __stack_top,0x80100000

        .text

_start:
        la      t0,first_trap
        csrw    mtvec,t0
        la      sp,__stack_top
        la      tp,__tls_base
        call    board_init
        mv      a1,a0
        li      a0,1
        call    main
        tail    exit

first_trap:
        la      sp,__stack_top
        csrr    a0,mcause
        csrr    a1,mepc
        csrr    a2,mtval
        tail    board_trap

put:
put.17:                 # board.c:17  {
put.18:                 # board.c:18      (void)file;
put.19:                 # board.c:19      SERIAL_TRANSMIT = (uint8_t)c;
        li      a4,0x10000000
        sb      a0,0(a4)
put.20:                 # board.c:20      return (unsigned char)c;
        ret

get:
get.25:                 # board.c:25  {
        li      a5,0x10000000
get.26:                 # board.c:26      uint32_t byte;
get.27:                 # board.c:27      (void)file;
get.28:                 # board.c:28      do byte = SERIAL_RECEIVE; while (byte >> 31);
        lw      a0,4(a5)
        bltz    a0,get.26
get.29:                 # board.c:29      return byte == END_OF_INPUT ? _FDEV_EOF : (int)byte;
        li      a5,4
        bne     a0,a5,get.30
        li      a0,-2
get.30:                 # board.c:30  }
        ret

put_word:
put_word.62:            # board.c:62  {
put_word.63:            # board.c:63      put_text(name);
put_word.58:            # board.c:58      while (*text) SERIAL_TRANSMIT = (uint8_t)*text++;
        li      a4,0x10000000
put_word.58.2:          # board.c:58      while (*text) SERIAL_TRANSMIT = (uint8_t)*text++;
        lbu     a5,0(a0)
        bnez    a5,put_word.58.3
        lui     a3,%hi(text.0123456789abcdef)
        li      a4,28
        addi    a3,a3,%lo(text.0123456789abcdef)
        li      a0,0x10000000
        li      a2,-4
put_word.64:            # board.c:64      for (int shift = 28; shift >= 0; shift -= 4) SERIAL_TRANSMIT = (uint8_t)"0123456789abcdef"[word >> shift & 15];
        srl     a5,a1,a4
        andi    a5,a5,15
        add     a5,a3,a5
        lbu     a5,0(a5)
        addi    a4,a4,-4
        sb      a5,0(a0)
        bne     a4,a2,put_word.64
        ret
put_word.58.3:          # board.c:58      while (*text) SERIAL_TRANSMIT = (uint8_t)*text++;
        addi    a0,a0,1
        sb      a5,0(a4)
        j       put_word.58.2

board_init:
board_init.44:          # board.c:44  {
board_init.45:          # board.c:45      static char name[] = "program", *arguments[] = { name, NULL };
board_init.46:          # board.c:46      for (constructor **it = __preinit_array_start; it != __preinit_array_end; it++) (*it)();
        addi    sp,sp,-16
        sw      s0,8(sp)
        sw      s1,4(sp)
        lui     s0,%hi(__preinit_array_start)
        lui     s1,%hi(__preinit_array_end)
        sw      ra,12(sp)
        addi    s0,s0,%lo(__preinit_array_start)
        addi    s1,s1,%lo(__preinit_array_end)
board_init.46.2:        # board.c:46      for (constructor **it = __preinit_array_start; it != __preinit_array_end; it++) (*it)();
        bne     s0,s1,board_init.46.3
        lui     s0,%hi(__init_array_start)
        lui     s1,%hi(__init_array_end)
        addi    s0,s0,%lo(__init_array_start)
        addi    s1,s1,%lo(__init_array_end)
board_init.47:          # board.c:47      for (constructor **it = __init_array_start; it != __init_array_end; it++) (*it)();
        bne     s0,s1,board_init.47.2
board_init.48:          # board.c:48      return arguments;
        lw      ra,12(sp)
        lw      s0,8(sp)
        lui     a0,%hi(arguments.1)
        lw      s1,4(sp)
        addi    a0,a0,%lo(arguments.1)
        addi    sp,sp,16
        ret
board_init.46.3:        # board.c:46      for (constructor **it = __preinit_array_start; it != __preinit_array_end; it++) (*it)();
        lw      a5,0(s0)
        addi    s0,s0,4
        jalr    a5
        j       board_init.46.2
board_init.47.2:        # board.c:47      for (constructor **it = __init_array_start; it != __init_array_end; it++) (*it)();
        lw      a5,0(s0)
        addi    s0,s0,4
        jalr    a5
        j       board_init.47

_exit:
_exit.52:               # board.c:52  {
        beqz    a0,_exit.53.3
        li      a5,0x3000
        slli    a0,a0,16
        addi    a5,a5,819
        or      a0,a0,a5
_exit.53.2:             # board.c:53      for (;;) HALT = code ? (uint32_t)code << 16 | 0x3333 : 0x5555;
        li      a5,0x100000
_exit.53:               # board.c:53      for (;;) HALT = code ? (uint32_t)code << 16 | 0x3333 : 0x5555;
        sw      a0,0(a5)
        j       _exit.53
_exit.53.3:
        li      a0,0x5555
        j       _exit.53.2

board_trap:
board_trap.68:          # board.c:68  {
board_trap.69:          # board.c:69      put_word("\ntrap cause=", cause);
        addi    sp,sp,-16
        sw      s0,8(sp)
        sw      s2,0(sp)
        mv      s0,a0
        mv      s2,a1
        mv      a1,a0
        lui     a0,%hi(text.trap_cause)
        addi    a0,a0,%lo(text.trap_cause)
        sw      ra,12(sp)
        sw      s1,4(sp)
        mv      s1,a2
        jal     put_word
board_trap.70:          # board.c:70      put_word(" epc=", epc);
        lui     a0,%hi(text.epc)
        mv      a1,s2
        addi    a0,a0,%lo(text.epc)
        jal     put_word
board_trap.71:          # board.c:71      put_word(" tval=", tval);
        lui     a0,%hi(text.tval)
        mv      a1,s1
        addi    a0,a0,%lo(text.tval)
        jal     put_word
board_trap.72:          # board.c:72      put_text("\n");
board_trap.58:          # board.c:58      while (*text) SERIAL_TRANSMIT = (uint8_t)*text++;
        lui     a5,%hi(text)
        addi    a5,a5,%lo(text)
        li      a3,0x10000000
board_trap.58.2:        # board.c:58      while (*text) SERIAL_TRANSMIT = (uint8_t)*text++;
        lbu     a4,0(a5)
        bnez    a4,board_trap.58.3
board_trap.73:          # board.c:73      _exit(128 + (int)(cause & 31));
        andi    a0,s0,31
        addi    a0,a0,128
        jal     _exit
board_trap.58.3:        # board.c:58      while (*text) SERIAL_TRANSMIT = (uint8_t)*text++;
        addi    a5,a5,1
        sb      a4,0(a3)
        j       board_trap.58.2

try:
try.13:                 # harness.c:13  {
        addi    sp,sp,-32
        sw      ra,28(sp)
        sw      s0,24(sp)
        sw      s1,20(sp)
        sw      s2,16(sp)
        sw      s3,12(sp)
        mv      s1,a0                   # name
        mv      a0,a1                   # table
        mv      a1,a2                   # n
        mv      s0,a3                   # right
        mv      s2,a4                   # most
try.14:                 # harness.c:14      uint32_t before = csr_read(minstret);
        csrr    s3,minstret             # v_
try.15:                 # harness.c:15      int got = largest_gap(table, n);
                        # harness.c:14      uint32_t before = csr_read(minstret);
        jal     largest_gap
try.16:                 # harness.c:16      uint32_t taken = csr_read(minstret) - before;
        csrr    a5,minstret             # v_
try.17:                 # harness.c:17      if (got != right) {
                        # harness.c:16      uint32_t taken = csr_read(minstret) - before;
        bne     a0,s0,try.18            # got, right
        sub     a2,a5,s3                # taken, v_
try.21:                 # harness.c:21      if (taken > most) {
        bltu    s2,a2,try.22            # taken, most
try.25:                 # harness.c:25      printf("%s: right\n", name);
        mv      a1,s1                   # name
        lui     a0,%hi(text.s_right)
        addi    a0,a0,%lo(text.s_right)
        jal     printf
try.26:                 # harness.c:26      return 1;
        li      a0,1                    # <retval>
try.27:                 # harness.c:27  }
        lw      ra,28(sp)
        lw      s0,24(sp)
        lw      s1,20(sp)
        lw      s2,16(sp)
        lw      s3,12(sp)
        addi    sp,sp,32
        ret
try.18:                 # harness.c:18          printf("%s: wrong, %d and not %d\n", name, got, right);
        mv      a3,s0                   # right
        mv      a2,a0                   # got
        mv      a1,s1                   # name
        lui     a0,%hi(text.s_wrong_d_and_not_d)
        addi    a0,a0,%lo(text.s_wrong_d_and_not_d)
        jal     printf
try.19:                 # harness.c:19          return 0;
        li      a0,0                    # <retval>
        j       try.27
try.22:                 # harness.c:22          printf("%s: right, but %lu instructions, more than %lu\n", name, (unsigned long)taken, (unsigned long)most);
        mv      a3,s2                   # most
        mv      a1,s1                   # name
        lui     a0,%hi(text.s_right_but_lu_instr)
        addi    a0,a0,%lo(text.s_right_but_lu_instr)
        jal     printf
try.23:                 # harness.c:23          return 0;
        li      a0,0                    # <retval>
        j       try.27

main:
main.30:                # harness.c:30  {
        addi    sp,sp,-16
        sw      ra,12(sp)
        sw      s0,8(sp)
main.31:                # harness.c:31      int n = 0;
main.32:                # harness.c:32      for (int i = 0; i < 200; i++) many[i] = i * 7919 % 1009;
        lui     a4,%hi(many)
        addi    a4,a4,%lo(many)         # ivtmp.11
        li      a5,0                    # ivtmp.10
        li      a0,1009
        li      a1,7919
        li      a2,0x182ab8
main.32.2:              # harness.c:32      for (int i = 0; i < 200; i++) many[i] = i * 7919 % 1009;
        rem     a3,a5,a0                # ivtmp.10
        sw      a3,0(a4)
        add     a5,a5,a1                # ivtmp.10
        addi    a4,a4,4                 # ivtmp.11
        bne     a5,a2,main.32.2         # ivtmp.10
main.33:                # harness.c:33      n += try("four", four, 4, 8, FEW);
        li      a4,200
        li      a3,8
        li      a2,4
        lui     a1,%hi(four)
        addi    a1,a1,%lo(four)
        lui     a0,%hi(text.four)
        addi    a0,a0,%lo(text.four)
        jal     try
        mv      s0,a0
main.34:                # harness.c:34      n += try("two", two, 2, 10, FEW);
        li      a4,200
        li      a3,10
        li      a2,2
        lui     a1,%hi(two)
        addi    a1,a1,%lo(two)
        lui     a0,%hi(text.two)
        addi    a0,a0,%lo(text.two)
        jal     try
        add     s0,s0,a0                # n
main.35:                # harness.c:35      n += try("one", one, 1, 0, FEW);
        li      a4,200
        li      a3,0
        li      a2,1
        lui     a1,%hi(one)
        addi    a1,a1,%lo(one)
        lui     a0,%hi(text.one)
        addi    a0,a0,%lo(text.one)
        jal     try
        add     s0,s0,a0                # n
main.36:                # harness.c:36      n += try("many", many, 200, 1005, MANY);
        li      a4,4000
        li      a3,1005
        li      a2,200
        lui     a1,%hi(many)
        addi    a1,a1,%lo(many)
        lui     a0,%hi(text.many)
        addi    a0,a0,%lo(text.many)
        jal     try
        add     s0,s0,a0                # n
main.37:                # harness.c:37      printf("%d of 4\n", n);
        mv      a1,s0                   # n
        lui     a0,%hi(text.d_of_4)
        addi    a0,a0,%lo(text.d_of_4)
        jal     printf
main.38:                # harness.c:38      return n == 4 ? 0 : 1;
        addi    a0,s0,-4                # n
        snez    a0,a0
        lw      ra,12(sp)
        lw      s0,8(sp)
        addi    sp,sp,16
        ret

largest_gap:
largest_gap.3:          # bob.c:3  {
        mv      a6,a0                   # t
largest_gap.4:          # bob.c:4      int best = 0;
largest_gap.5:          # bob.c:5      for (int i = 0; i < n; i++)
        blez    a1,largest_gap.4.2      # n
        slli    a3,a1,2                 # n
        add     a3,a0,a3                # t
        mv      a1,a0                   # ivtmp.14, t
        li      a0,0                    # <retval>
        j       largest_gap.7.2
largest_gap.6:          # bob.c:6          for (int k = 0; k < n; k++)
        addi    a4,a4,4                 # ivtmp.10
        beq     a4,a3,largest_gap.5.2   # ivtmp.10
largest_gap.7:          # bob.c:7              if (t[i] - t[k] > best) best = t[i] - t[k];
        lw      a5,0(a4)
        sub     a5,a2,a5
        bge     a0,a5,largest_gap.6     # <retval>
        mv      a0,a5                   # <retval>
        j       largest_gap.6
largest_gap.5.2:        # bob.c:5      for (int i = 0; i < n; i++)
        addi    a1,a1,4                 # ivtmp.14
        beq     a1,a3,largest_gap.8     # ivtmp.14
largest_gap.7.2:        # bob.c:6          for (int k = 0; k < n; k++)
        lw      a2,0(a1)
        mv      a4,a6                   # ivtmp.10, t
        j       largest_gap.7
largest_gap.4.2:        # bob.c:4      int best = 0;
        li      a0,0                    # <retval>
largest_gap.8:          # bob.c:8      return best;
        ret

exit:
        jal     t0,__riscv_save_1
        li      a5,0
        mv      s0,a0
        beqz    a5,exit.1
        li      a1,0
        auipc   ra,0x0                  # %pcrel_hi(0x0)
        jalr    zero
exit.1:
        jal     __libc_fini_array
        mv      a0,s0
        jal     _exit

printf:
        addi    sp,sp,-64
        sw      a5,52(sp)
        lui     a5,%hi(stdout)
        sw      a1,36(sp)
        mv      a1,a0
        lw      a0,%lo(stdout)(a5)
        sw      a2,40(sp)
        addi    a2,sp,36
        sw      ra,28(sp)
        sw      a3,44(sp)
        sw      a4,48(sp)
        sw      a6,56(sp)
        sw      a7,60(sp)
        sw      a2,12(sp)
        jal     vfprintf
        lw      ra,28(sp)
        addi    sp,sp,64
        ret

__ultoa_invert:
        andi    a5,a2,512
        mv      a4,a0
        li      a3,39
        mv      a0,a1
        beqz    a5,__ultoa_invert.1
        andi    a2,a2,-513
        li      a3,7
__ultoa_invert.1:
        li      a6,9
__ultoa_invert.2:
        remu    a5,a4,a2
        mv      a1,a4
        andi    a5,a5,255
        divu    a4,a4,a2
        bgeu    a6,a5,__ultoa_invert.3
        add     a5,a5,a3
        andi    a5,a5,255
__ultoa_invert.3:
        addi    a0,a0,1
        addi    a5,a5,48
        sb      a5,-1(a0)
        bgeu    a1,a2,__ultoa_invert.2
        ret

vfprintf:
__i_vfprintf:
        jal     t0,__riscv_save_12
        lbu     a5,4(a0)
        lw      s5,8(a0)
        addi    sp,sp,-32
        andi    a5,a5,2
        beqz    a5,vfprintf.42
        mv      s4,a0
        mv      s1,a2
        li      s2,0
        li      s8,37
vfprintf.1:
        lbu     s9,0(a1)
        beqz    s9,vfprintf.43
        addi    s7,a1,1
        bne     s9,s8,vfprintf.2
        lbu     s9,1(a1)
        addi    s7,a1,2
        bne     s9,s8,vfprintf.5
vfprintf.2:
        addi    s2,s2,1
vfprintf.3:
        mv      a1,s4
        mv      a0,s9
        jalr    s5
        bltz    a0,vfprintf.42
vfprintf.4:
        mv      a1,s7
        j       vfprintf.1
vfprintf.5:
        lui     a4,%hi(rodata.e0)
        li      s11,0
        li      s3,0
        li      s0,0
        li      a2,31
        li      a3,108
        li      a1,116
        li      a0,122
        li      a6,104
        li      a7,106
        li      t1,76
        li      t3,42
        li      t4,46
        li      t5,127
        li      t6,16
        li      t0,9
        addi    a4,a4,%lo(rodata.e0)
vfprintf.6:
        bltu    a2,s0,vfprintf.15
        addi    a5,s9,-32
        andi    a5,a5,255
        bltu    t6,a5,vfprintf.7
        slli    a5,a5,2
        add     a5,a5,a4
        lw      a5,0(a5)
        jr      a5
vfprintf.7:
        addi    a5,s9,-48
        andi    a5,a5,255
        bltu    t0,a5,vfprintf.16
vfprintf.8:
        li      t2,10
        mul     t2,s3,t2
        ori     s0,s0,32
        add     s3,t2,a5
        j       vfprintf.10
vfprintf.9:
        ori     s0,s0,1
vfprintf.10:
        lbu     s9,0(s7)
        addi    s7,s7,1
        bnez    s9,vfprintf.6
        j       vfprintf.20
vfprintf.11:
        ori     s0,s0,2
vfprintf.12:
        ori     s0,s0,4
        j       vfprintf.10
vfprintf.13:
        ori     s0,s0,8
        j       vfprintf.10
vfprintf.14:
        ori     s0,s0,16
        j       vfprintf.10
vfprintf.15:
        bltu    t5,s0,vfprintf.19
        addi    t2,s9,-48
        andi    t2,t2,255
        li      a5,9
        bltu    a5,t2,vfprintf.16
        andi    s6,s0,64
        mv      a5,t2
        beqz    s6,vfprintf.8
        li      a5,10
        mul     a5,s11,a5
        add     s11,a5,t2
        j       vfprintf.10
vfprintf.16:
        bne     s9,t3,vfprintf.18
        lw      a5,0(s1)
        addi    t2,s1,4
        andi    s1,s0,64
        bnez    s1,vfprintf.32
        bltz    a5,vfprintf.17
        ori     s0,s0,32
        mv      s1,t2
        mv      s3,a5
        j       vfprintf.10
vfprintf.17:
        neg     s3,a5
        ori     s0,s0,40
        mv      s1,t2
        j       vfprintf.10
vfprintf.18:
        bne     s9,t4,vfprintf.19
        andi    a5,s0,64
        bnez    a5,vfprintf.43
        ori     s0,s0,64
        j       vfprintf.10
vfprintf.19:
        beq     s9,a3,vfprintf.27
        bltu    a3,s9,vfprintf.26
        beq     s9,a6,vfprintf.29
        beq     s9,a7,vfprintf.31
        beq     s9,t1,vfprintf.31
vfprintf.20:
        bgez    s11,vfprintf.21
        andi    s0,s0,-65
        slli    s0,s0,16
        srli    s0,s0,16
        li      s11,0
vfprintf.21:
        ori     a4,s9,32
        addi    a5,a4,-101
        andi    a5,a5,255
        li      a3,2
        bgeu    a3,a5,vfprintf.22
        li      a5,97
        bne     a4,a5,vfprintf.33
vfprintf.22:
        addi    s1,s1,7
        andi    s1,s1,-8
        lui     s6,%hi(text.float)
        addi    s1,s1,8
        li      s9,7
        addi    s6,s6,%lo(text.float)
vfprintf.23:
        andi    s0,s0,8
        beqz    s0,vfprintf.40
vfprintf.24:
        li      s0,0
vfprintf.25:
        bne     s9,s0,vfprintf.41
        add     s0,s2,s9
        sub     s3,s3,s9
        j       vfprintf.79
vfprintf.26:
        beq     s9,a1,vfprintf.10
        beq     s9,a0,vfprintf.10
        j       vfprintf.20
vfprintf.27:
        andi    a5,s0,128
        beqz    a5,vfprintf.28
        ori     s0,s0,512
vfprintf.28:
        ori     s0,s0,128
        j       vfprintf.10
vfprintf.29:
        andi    a5,s0,256
        beqz    a5,vfprintf.30
        ori     s0,s0,512
vfprintf.30:
        ori     s0,s0,256
        j       vfprintf.10
vfprintf.31:
        ori     s0,s0,640
        j       vfprintf.10
vfprintf.32:
        mv      s1,t2
        mv      s11,a5
        j       vfprintf.10
vfprintf.33:
        addi    a5,s9,-99
        andi    a5,a5,255
        li      a3,18
        bltu    a3,a5,vfprintf.59
        lui     a3,%hi(rodata.124)
        slli    a5,a5,2
        addi    a3,a3,%lo(rodata.124)
        add     a5,a5,a3
        lw      a5,0(a5)
        jr      a5
vfprintf.34:
        lw      a5,0(s1)
        li      s9,1
        addi    s1,s1,4
        sb      a5,20(sp)
        addi    s6,sp,20
        j       vfprintf.23
vfprintf.35:
        lw      s6,0(s1)
        addi    s10,s1,4
        bnez    s6,vfprintf.36
        lui     s6,%hi(text.null)
        addi    s6,s6,%lo(text.null)
vfprintf.36:
        andi    a5,s0,64
        li      a1,-1
        beqz    a5,vfprintf.37
        mv      a1,s11
vfprintf.37:
        mv      a0,s6
        jal     strnlen
        mv      s9,a0
        mv      s1,s10
        j       vfprintf.23
vfprintf.38:
        mv      a1,s4
        li      a0,32
        jalr    s5
        bltz    a0,vfprintf.42
        addi    s0,s0,-1
vfprintf.39:
        bltu    s9,s0,vfprintf.38
        add     s2,s3,s2
        sub     s2,s2,s0
        mv      s3,s0
        j       vfprintf.24
vfprintf.40:
        mv      s0,s3
        j       vfprintf.39
vfprintf.41:
        add     a5,s6,s0
        lbu     a0,0(a5)
        mv      a1,s4
        addi    s0,s0,1
        jalr    s5
        bgez    a0,vfprintf.25
vfprintf.42:
        li      s2,-1
vfprintf.43:
        mv      a0,s2
        addi    sp,sp,32
        j       __riscv_restore_12
vfprintf.44:
        andi    a5,s0,128
        beqz    a5,vfprintf.49
        andi    a5,s0,512
        addi    s6,s1,4
        beqz    a5,vfprintf.45
        addi    s1,s1,7
        andi    s1,s1,-8
        addi    s6,s1,8
vfprintf.45:
        lw      a0,0(s1)
vfprintf.46:
        andi    s1,s0,-17
        slli    s1,s1,16
        srli    s1,s1,16
        bgez    a0,vfprintf.51
        neg     a0,a0
        ori     s1,s1,1024
vfprintf.47:
        addi    s0,sp,20
        li      a2,10
vfprintf.48:
        mv      a1,s0
        jal     __ultoa_invert
        andi    a5,s1,64
        sub     s0,a0,s0
        beqz    a5,vfprintf.57
        andi    a4,s1,-2
        slli    a4,a4,16
        srli    a4,a4,16
        bge     s0,s11,vfprintf.67
        beqz    s9,vfprintf.66
        andi    a5,s1,16
        bnez    a5,vfprintf.68
        mv      s10,s11
        mv      s1,a4
        j       vfprintf.52
vfprintf.49:
        andi    a5,s0,256
        lw      a0,0(s1)
        addi    s6,s1,4
        beqz    a5,vfprintf.46
        andi    a5,s0,512
        beqz    a5,vfprintf.50
        slli    a0,a0,24
        srai    a0,a0,24
        j       vfprintf.46
vfprintf.50:
        slli    a0,a0,16
        srai    a0,a0,16
        j       vfprintf.46
vfprintf.51:
        bnez    a0,vfprintf.47
        andi    a5,s0,64
        beqz    a5,vfprintf.47
        bnez    s11,vfprintf.47
        andi    s1,s0,-18
        slli    s1,s1,16
        srli    s1,s1,16
        li      s0,0
        li      s10,0
vfprintf.52:
        andi    a5,s1,1030
        beqz    a5,vfprintf.70
        addi    s10,s10,1
        li      a5,0
        j       vfprintf.70
vfprintf.53:
        andi    s0,s0,-17
        slli    s0,s0,16
        srli    s0,s0,16
        li      a2,10
vfprintf.54:
        andi    a5,s0,128
        beqz    a5,vfprintf.62
        andi    a5,s0,512
        addi    s6,s1,4
        beqz    a5,vfprintf.55
        addi    s1,s1,7
        andi    s1,s1,-8
        addi    s6,s1,8
vfprintf.55:
        lw      a0,0(s1)
vfprintf.56:
        bnez    a0,vfprintf.64
        andi    s1,s0,-23
        slli    s1,s1,16
        andi    a5,s0,64
        srli    s1,s1,16
        beqz    a5,vfprintf.65
        bnez    s11,vfprintf.65
        andi    s1,s0,-24
        slli    s1,s1,16
        srli    s1,s1,16
        li      s0,0
vfprintf.57:
        andi    a5,s1,16
        beqz    a5,vfprintf.72
        addi    s10,s0,1
        beqz    s9,vfprintf.70
        mv      a3,s0
        j       vfprintf.69
vfprintf.58:
        ori     s0,s0,16
        li      a2,16
        li      s9,120
        j       vfprintf.54
vfprintf.59:
        li      a5,120
        bne     a4,a5,vfprintf.60
        li      a5,88
        li      a2,16
        bne     s9,a5,vfprintf.54
        li      a2,528
        j       vfprintf.54
vfprintf.60:
        mv      a1,s4
        li      a0,37
        jalr    s5
        bltz    a0,vfprintf.42
        addi    s2,s2,2
        j       vfprintf.3
vfprintf.61:
        li      a2,8
        li      s9,0
        j       vfprintf.54
vfprintf.62:
        andi    a5,s0,256
        lw      a0,0(s1)
        addi    s6,s1,4
        beqz    a5,vfprintf.56
        andi    a5,s0,512
        beqz    a5,vfprintf.63
        andi    a0,a0,255
        j       vfprintf.56
vfprintf.63:
        slli    a0,a0,16
        srli    a0,a0,16
        j       vfprintf.56
vfprintf.64:
        andi    s0,s0,-7
        slli    s1,s0,16
        srli    s1,s1,16
vfprintf.65:
        addi    s0,sp,20
        j       vfprintf.48
vfprintf.66:
        andi    s1,s1,-18
        slli    s1,s1,16
        srli    s1,s1,16
        mv      s10,s11
        j       vfprintf.52
vfprintf.67:
        mv      s1,a4
        j       vfprintf.57
vfprintf.68:
        mv      a3,s0
        mv      s1,a4
        mv      s0,s11
vfprintf.69:
        addi    s10,s0,2
        mv      s0,a3
vfprintf.70:
        andi    a4,s1,8
        bnez    a4,vfprintf.75
        andi    a4,s1,1
        beqz    a4,vfprintf.71
        mv      s11,s0
        bge     s10,s3,vfprintf.71
        sub     s10,s3,s10
        add     s11,s10,s0
        mv      s10,s3
vfprintf.71:
        mv      a4,s10
        j       vfprintf.74
vfprintf.72:
        mv      s10,s0
        j       vfprintf.52
vfprintf.73:
        mv      a1,s4
        li      a0,32
        sw      a5,12(sp)
        sw      a4,8(sp)
        jalr    s5
        bltz    a0,vfprintf.42
        lw      a4,8(sp)
        lw      a5,12(sp)
        addi    a4,a4,1
vfprintf.74:
        blt     a4,s3,vfprintf.73
        sub     s10,s2,s10
        add     s2,s10,a4
        mv      s10,a4
vfprintf.75:
        beqz    a5,vfprintf.82
        mv      a1,s4
        li      a0,48
        jalr    s5
        bltz    a0,vfprintf.42
        bnez    s9,vfprintf.80
        addi    s2,s2,1
vfprintf.76:
        add     s11,s2,s11
vfprintf.77:
        sub     a5,s11,s2
        blt     s0,a5,vfprintf.85
        mv      s1,s0
vfprintf.78:
        bnez    s1,vfprintf.86
        add     s0,s0,s2
        sub     s3,s3,s10
        mv      s1,s6
vfprintf.79:
        mv      s2,s0
        add     s3,s0,s3
        j       vfprintf.88
vfprintf.80:
        addi    s2,s2,2
        mv      a1,s4
        mv      a0,s9
vfprintf.81:
        jalr    s5
        bgez    a0,vfprintf.76
        j       vfprintf.42
vfprintf.82:
        andi    a5,s1,1030
        beqz    a5,vfprintf.76
        andi    a5,s1,2
        li      a0,32
        beqz    a5,vfprintf.83
        li      a0,43
vfprintf.83:
        andi    s1,s1,1024
        beqz    s1,vfprintf.84
        li      a0,45
vfprintf.84:
        addi    s2,s2,1
        mv      a1,s4
        j       vfprintf.81
vfprintf.85:
        mv      a1,s4
        li      a0,48
        addi    s2,s2,1
        jalr    s5
        bgez    a0,vfprintf.77
        j       vfprintf.42
vfprintf.86:
        addi    s1,s1,-1
        addi    a5,sp,20
        add     a5,a5,s1
        lbu     a0,0(a5)
        mv      a1,s4
        jalr    s5
        bgez    a0,vfprintf.78
        j       vfprintf.42
vfprintf.87:
        mv      a1,s4
        li      a0,32
        addi    s2,s2,1
        jalr    s5
        bltz    a0,vfprintf.42
vfprintf.88:
        sub     a5,s3,s2
        bgtz    a5,vfprintf.87
        j       vfprintf.4

__libc_fini_array:
        jal     t0,__riscv_save_1
        li      a4,0
        li      s0,0
        sub     s0,s0,a4
        srai    s0,s0,2
        li      s1,0
__libc_fini_array.1:
        bnez    s0,__libc_fini_array.3
        li      a5,0
        beqz    a5,__libc_fini_array.2
        auipc   ra,0x0                  # %pcrel_hi(0x0)
        jalr    zero
__libc_fini_array.2:
        j       __riscv_restore_3
__libc_fini_array.3:
        addi    s0,s0,-1
        slli    a5,s0,2
        add     a5,s1,a5
        lw      a5,0(a5)
        jalr    a5
        j       __libc_fini_array.1

strnlen:
        add     a1,a0,a1
        mv      a5,a0
strnlen.1:
        beq     a5,a1,strnlen.2
        lbu     a4,0(a5)
        bnez    a4,strnlen.3
strnlen.2:
        sub     a0,a5,a0
        ret
strnlen.3:
        addi    a5,a5,1
        j       strnlen.1

__riscv_save_12:
        addi    sp,sp,-64
        li      t1,0
        sw      s11,12(sp)
        j       __riscv_save_8.1

__riscv_save_8:
__riscv_save_11:
__riscv_save_9:
__riscv_save_10:
        addi    sp,sp,-64
        li      t1,-16
__riscv_save_8.1:
        sw      s10,16(sp)
        sw      s9,20(sp)
        sw      s8,24(sp)
        sw      s7,28(sp)
        j       __riscv_save_7.1

__riscv_save_7:
__riscv_save_4:
__riscv_save_6:
__riscv_save_5:
        addi    sp,sp,-64
        li      t1,-32
__riscv_save_7.1:
        sw      s6,32(sp)
        sw      s5,36(sp)
        sw      s4,40(sp)
        sw      s3,44(sp)
        sw      s2,48(sp)
        sw      s1,52(sp)
        sw      s0,56(sp)
        sw      ra,60(sp)
        sub     sp,sp,t1
        jr      t0

__riscv_save_1:
__riscv_save_3:
__riscv_save_2:
__riscv_save_0:
        addi    sp,sp,-16
        sw      s2,0(sp)
        sw      s1,4(sp)
        sw      s0,8(sp)
        sw      ra,12(sp)
        jr      t0

__riscv_restore_12:
        lw      s11,12(sp)
        addi    sp,sp,16

__riscv_restore_10:
__riscv_restore_11:
__riscv_restore_8:
__riscv_restore_9:
        lw      s10,0(sp)
        lw      s9,4(sp)
        lw      s8,8(sp)
        lw      s7,12(sp)
        addi    sp,sp,16

__riscv_restore_5:
__riscv_restore_6:
__riscv_restore_4:
__riscv_restore_7:
        lw      s6,0(sp)
        lw      s5,4(sp)
        lw      s4,8(sp)
        lw      s3,12(sp)
        addi    sp,sp,16

__riscv_restore_3:
__riscv_restore_2:
__riscv_restore_0:
__riscv_restore_1:
        lw      s2,0(sp)
        lw      s1,4(sp)
        lw      s0,8(sp)
        lw      ra,12(sp)
        addi    sp,sp,16
        ret

        .rodata
text.0123456789abcdef:
        .asciz  "0123456789abcdef"
        .space  3
text.trap_cause:
        .asciz  "\ntrap cause="
        .space  3
text.epc:
        .asciz  " epc="
        .space  2
text.tval:
        .asciz  " tval="
        .space  1
stdout:
        .word   serial
text.s_wrong_d_and_not_d:
        .ascii  "%s: wrong, %d and not %d"
text:
        .asciz  "\n"
        .space  2
text.s_right_but_lu_instr:
        .asciz  "%s: right, but %lu instructions, more than %lu\n"
text.s_right:
        .asciz  "%s: right\n"
        .space  1
text.four:
        .asciz  "four"
        .space  3
text.two:
        .asciz  "two"
text.one:
        .asciz  "one"
text.many:
        .asciz  "many"
        .space  3
text.d_of_4:
        .asciz  "%d of 4\n"
        .space  3
one:
        .word   4
two:
        .word   -5,5
four:
        .word   3,9,1,7
text.null:
        .asciz  "(null)"
        .space  1
text.float:
        .asciz  "*float*"
rodata.e0:
        .word   vfprintf.12,vfprintf.7,vfprintf.7,vfprintf.14
        .word   vfprintf.7,vfprintf.7,vfprintf.7,vfprintf.10
        .word   vfprintf.7,vfprintf.7,vfprintf.7,vfprintf.11
        .word   vfprintf.7,vfprintf.13,vfprintf.7,vfprintf.7
        .word   vfprintf.9
rodata.124:
        .word   vfprintf.34,vfprintf.44,vfprintf.59,vfprintf.59
        .word   vfprintf.59,vfprintf.59,vfprintf.44,vfprintf.59
        .word   vfprintf.59,vfprintf.59,vfprintf.59,vfprintf.59
        .word   vfprintf.61,vfprintf.58,vfprintf.59,vfprintf.59
        .word   vfprintf.35,vfprintf.59,vfprintf.53

        .data
name.0:
__init_array_end:
__preinit_array_end:
__init_array_start:
__preinit_array_start:
        .asciz  "program"
arguments.1:
        .word   name.0,0
serial:
        .word   0,3,put,get,0
        .space  4

        .bss
many:
__tls_base:
__bss_start:
        .space  800
__bss_end:
__heap_start:
