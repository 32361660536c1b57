# Made by elf2s of memory.elf: 4280 bytes, entry _start.
        .equ    __heap_end,0x800fc000
        .equ    __heap_start,0x80001268
        .equ    __stack_top,0x80100000

        .text

_start:
        la      t0,first_trap
        csrw    mtvec,t0
        la      sp,__stack_top
        la      tp,__tls_base
        call    board_init
        mv      a1,a0
        li      a0,1
        call    main
        tail    exit

first_trap:
        la      sp,__stack_top
        csrr    a0,mcause
        csrr    a1,mepc
        csrr    a2,mtval
        tail    board_trap

put:
put.17:                 # board.c:17  {
put.18:                 # board.c:18      (void)file;
put.19:                 # board.c:19      SERIAL_TRANSMIT = (uint8_t)c;
        li      a4,0x10000000
        sb      a0,0(a4)
put.20:                 # board.c:20      return (unsigned char)c;
        ret

get:
get.25:                 # board.c:25  {
        li      a5,0x10000000
get.26:                 # board.c:26      uint32_t byte;
get.27:                 # board.c:27      (void)file;
get.28:                 # board.c:28      do byte = SERIAL_RECEIVE; while (byte >> 31);
        lw      a0,4(a5)
        bltz    a0,get.26
get.29:                 # board.c:29      return byte == END_OF_INPUT ? _FDEV_EOF : (int)byte;
        li      a5,4
        bne     a0,a5,get.30
        li      a0,-2
get.30:                 # board.c:30  }
        ret

put_word:
put_word.62:            # board.c:62  {
put_word.63:            # board.c:63      put_text(name);
put_word.58:            # board.c:58      while (*text) SERIAL_TRANSMIT = (uint8_t)*text++;
        li      a4,0x10000000
put_word.58.2:          # board.c:58      while (*text) SERIAL_TRANSMIT = (uint8_t)*text++;
        lbu     a5,0(a0)
        bnez    a5,put_word.58.3
        lui     a3,%hi(text.0123456789abcdef)
        li      a4,28
        addi    a3,a3,%lo(text.0123456789abcdef)
        li      a0,0x10000000
        li      a2,-4
put_word.64:            # board.c:64      for (int shift = 28; shift >= 0; shift -= 4) SERIAL_TRANSMIT = (uint8_t)"0123456789abcdef"[word >> shift & 15];
        srl     a5,a1,a4
        andi    a5,a5,15
        add     a5,a3,a5
        lbu     a5,0(a5)
        addi    a4,a4,-4
        sb      a5,0(a0)
        bne     a4,a2,put_word.64
        ret
put_word.58.3:          # board.c:58      while (*text) SERIAL_TRANSMIT = (uint8_t)*text++;
        addi    a0,a0,1
        sb      a5,0(a4)
        j       put_word.58.2

board_init:
board_init.44:          # board.c:44  {
board_init.45:          # board.c:45      static char name[] = "program", *arguments[] = { name, NULL };
board_init.46:          # board.c:46      for (constructor **it = __preinit_array_start; it != __preinit_array_end; it++) (*it)();
        addi    sp,sp,-16
        sw      s0,8(sp)
        sw      s1,4(sp)
        lui     s0,%hi(__preinit_array_start)
        lui     s1,%hi(__preinit_array_end)
        sw      ra,12(sp)
        addi    s0,s0,%lo(__preinit_array_start)
        addi    s1,s1,%lo(__preinit_array_end)
board_init.46.2:        # board.c:46      for (constructor **it = __preinit_array_start; it != __preinit_array_end; it++) (*it)();
        bne     s0,s1,board_init.46.3
        lui     s0,%hi(__init_array_start)
        lui     s1,%hi(__init_array_end)
        addi    s0,s0,%lo(__init_array_start)
        addi    s1,s1,%lo(__init_array_end)
board_init.47:          # board.c:47      for (constructor **it = __init_array_start; it != __init_array_end; it++) (*it)();
        bne     s0,s1,board_init.47.2
board_init.48:          # board.c:48      return arguments;
        lw      ra,12(sp)
        lw      s0,8(sp)
        lui     a0,%hi(arguments.1)
        lw      s1,4(sp)
        addi    a0,a0,%lo(arguments.1)
        addi    sp,sp,16
        ret
board_init.46.3:        # board.c:46      for (constructor **it = __preinit_array_start; it != __preinit_array_end; it++) (*it)();
        lw      a5,0(s0)
        addi    s0,s0,4
        jalr    a5
        j       board_init.46.2
board_init.47.2:        # board.c:47      for (constructor **it = __init_array_start; it != __init_array_end; it++) (*it)();
        lw      a5,0(s0)
        addi    s0,s0,4
        jalr    a5
        j       board_init.47

_exit:
_exit.52:               # board.c:52  {
        beqz    a0,_exit.53.3
        li      a5,0x3000
        slli    a0,a0,16
        addi    a5,a5,819
        or      a0,a0,a5
_exit.53.2:             # board.c:53      for (;;) HALT = code ? (uint32_t)code << 16 | 0x3333 : 0x5555;
        li      a5,0x100000
_exit.53:               # board.c:53      for (;;) HALT = code ? (uint32_t)code << 16 | 0x3333 : 0x5555;
        sw      a0,0(a5)
        j       _exit.53
_exit.53.3:
        li      a0,0x5555
        j       _exit.53.2

board_trap:
board_trap.68:          # board.c:68  {
board_trap.69:          # board.c:69      put_word("\ntrap cause=", cause);
        addi    sp,sp,-16
        sw      s0,8(sp)
        sw      s2,0(sp)
        mv      s0,a0
        mv      s2,a1
        mv      a1,a0
        lui     a0,%hi(text.trap_cause)
        addi    a0,a0,%lo(text.trap_cause)
        sw      ra,12(sp)
        sw      s1,4(sp)
        mv      s1,a2
        jal     put_word
board_trap.70:          # board.c:70      put_word(" epc=", epc);
        lui     a0,%hi(text.epc)
        mv      a1,s2
        addi    a0,a0,%lo(text.epc)
        jal     put_word
board_trap.71:          # board.c:71      put_word(" tval=", tval);
        lui     a0,%hi(text.tval)
        mv      a1,s1
        addi    a0,a0,%lo(text.tval)
        jal     put_word
board_trap.72:          # board.c:72      put_text("\n");
board_trap.58:          # board.c:58      while (*text) SERIAL_TRANSMIT = (uint8_t)*text++;
        lui     a5,%hi(text)
        addi    a5,a5,%lo(text)
        li      a3,0x10000000
board_trap.58.2:        # board.c:58      while (*text) SERIAL_TRANSMIT = (uint8_t)*text++;
        lbu     a4,0(a5)
        bnez    a4,board_trap.58.3
board_trap.73:          # board.c:73      _exit(128 + (int)(cause & 31));
        andi    a0,s0,31
        addi    a0,a0,128
        jal     _exit
board_trap.58.3:        # board.c:58      while (*text) SERIAL_TRANSMIT = (uint8_t)*text++;
        addi    a5,a5,1
        sb      a4,0(a3)
        j       board_trap.58.2

handler:
handler.14:             # memory.c:14  static void handler(int number) { (void)number; }
        ret

tell:
tell.18:                # memory.c:18  {
        addi    sp,sp,-16
        sw      ra,12(sp)
        sw      s0,8(sp)
        sw      s1,4(sp)
        mv      s1,a2
tell.19:                # memory.c:19      int same = 0;
tell.20:                # memory.c:20      while (same < size && bytes[same] == value) same++;
        li      s0,0
        j       tell.20.3
tell.20.2:              # memory.c:20      while (same < size && bytes[same] == value) same++;
        addi    s0,s0,1
tell.20.3:              # memory.c:20      while (same < size && bytes[same] == value) same++;
        bge     s0,s1,tell.21
        add     a5,a1,s0
        lbu     a5,0(a5)
        beq     a5,a3,tell.20.2
tell.21:                # memory.c:21      printf("%s: %s\n", name, same == size ? "kept" : "overwritten");
        beq     s0,s1,tell.21.3
        lui     a2,%hi(text.overwritten)
        addi    a2,a2,%lo(text.overwritten)
tell.21.2:
        mv      a1,a0
        lui     a0,%hi(text.s_s)
        addi    a0,a0,%lo(text.s_s)
        jal     printf
tell.22:                # memory.c:22      return same != size;
        sub     a0,s0,s1
        snez    a0,a0
        lw      ra,12(sp)
        lw      s0,8(sp)
        lw      s1,4(sp)
        addi    sp,sp,16
        ret
tell.21.3:              # memory.c:21      printf("%s: %s\n", name, same == size ? "kept" : "overwritten");
        lui     a2,%hi(text.kept)
        addi    a2,a2,%lo(text.kept)
        j       tell.21.2

main:
main.26:                # memory.c:26  {
        addi    sp,sp,-32
        sw      ra,28(sp)
        sw      s0,24(sp)
        sw      s1,20(sp)
        sw      s2,16(sp)
        sw      s3,12(sp)
        sw      s4,8(sp)
        sw      s5,4(sp)
        mv      s2,a0
        mv      s3,a1
main.27:                # memory.c:27      unsigned char *of_heap = malloc(SIZE);
        li      a0,100
        jal     malloc
        mv      s4,a0
main.28:                # memory.c:28      int faults = 0;
main.29:                # memory.c:29      memset(of_all, 1, SMALL);
        lui     s0,%hi(of_all)
        addi    a4,s0,%lo(of_all)
        li      a5,0x1010101
        sw      a5,0(a4)
        sw      a5,4(a4)
main.30:                # memory.c:30      memset(of_heap, 2, SIZE);
        li      a2,100
        li      a1,2
        jal     memset
main.31:                # memory.c:31      memset(of_section, 3, SIZE);
        li      a2,100
        li      a1,3
        lui     s5,%hi(of_section)
        addi    a0,s5,%lo(of_section)
        jal     memset
main.32:                # memory.c:32      memset(of_thread, 4, SIZE);
        li      a2,100
        li      a1,4
        mv      a0,tp
        jal     memset
main.33:                # memory.c:33      faults += tell("variables", of_all, SMALL, 1);
        li      a3,1
        li      a2,8
        addi    a1,s0,%lo(of_all)
        lui     a0,%hi(text.variables)
        addi    a0,a0,%lo(text.variables)
        jal     tell
        mv      s0,a0
main.34:                # memory.c:34      faults += tell("heap", of_heap, SIZE, 2);
        li      a3,2
        li      a2,100
        mv      a1,s4
        lui     a0,%hi(text.heap)
        addi    a0,a0,%lo(text.heap)
        jal     tell
        add     s0,s0,a0
main.35:                # memory.c:35      faults += tell("section", of_section, SIZE, 3);
        li      a3,3
        li      a2,100
        addi    a1,s5,%lo(of_section)
        lui     a0,%hi(text.section)
        addi    a0,a0,%lo(text.section)
        jal     tell
        add     s0,s0,a0
main.36:                # memory.c:36      signal(SIGINT, handler);            /* the library keeps handlers for each thread */
        lui     a1,%hi(handler)
        addi    a1,a1,%lo(handler)
        li      a0,2
        jal     signal
main.37:                # memory.c:37      memset(malloc(SIZE), 5, SIZE);
        li      a0,100
        jal     malloc
        li      a2,100
        li      a1,5
        jal     memset
main.38:                # memory.c:38      faults += tell("thread", of_thread, SIZE, 4);
        li      a3,4
        li      a2,100
        mv      a1,tp
        lui     a0,%hi(text.thread)
        addi    a0,a0,%lo(text.thread)
        jal     tell
        add     s0,s0,a0
main.39:                # memory.c:39      printf("aligned: %d\n", (uintptr_t)of_thread % ALIGNED == 0);
        li      a1,1
        lui     a0,%hi(text.aligned_d)
        addi    a0,a0,%lo(text.aligned_d)
        jal     printf
main.40:                # memory.c:40      printf("argv: %d, %s\n", argc, argv[0] ? argv[0] : "no name");
        lw      a2,0(s3)
        beqz    a2,main.40.3
main.40.2:
        mv      a1,s2
        lui     a0,%hi(text.argv_d_s)
        addi    a0,a0,%lo(text.argv_d_s)
        jal     printf
main.41:                # memory.c:41      return faults;
        mv      a0,s0
        lw      ra,28(sp)
        lw      s0,24(sp)
        lw      s1,20(sp)
        lw      s2,16(sp)
        lw      s3,12(sp)
        lw      s4,8(sp)
        lw      s5,4(sp)
        addi    sp,sp,32
        ret
main.40.3:              # memory.c:40      printf("argv: %d, %s\n", argc, argv[0] ? argv[0] : "no name");
        lui     a2,%hi(text.no_name)
        addi    a2,a2,%lo(text.no_name)
        j       main.40.2

memset:
        mv      t1,a0
        beqz    a2,memset.2
memset.1:
        sb      a1,0(t1)
        addi    a2,a2,-1
        addi    t1,t1,1
        bnez    a2,memset.1
memset.2:
        ret

cfree:
free:
__malloc_free:
        beqz    a0,cfree.8
        jal     t0,__riscv_save_1
        lui     s2,%hi(__lock___libc_recursive_mutex)
        sw      zero,0(a0)
        mv      s1,a0
        addi    s0,a0,-4
        addi    a0,s2,%lo(__lock___libc_recursive_mutex)
        jal     __retarget_lock_acquire_recursive
        lui     a4,%hi(__malloc_free_list)
        lw      a5,%lo(__malloc_free_list)(a4)
        addi    a4,a4,%lo(__malloc_free_list)
cfree.1:
        bnez    a5,cfree.3
cfree.2:
        sw      a5,0(s1)
        sw      s0,0(a4)
        j       cfree.4
cfree.3:
        bltu    s0,a5,cfree.2
        lw      a3,0(a5)
        add     a4,a5,a3
        bne     s0,a4,cfree.5
        lw      a4,-4(s1)
        mv      s0,a5
        add     a4,a4,a3
        sw      a4,0(a5)
        lw      a5,4(a5)
cfree.4:
        lw      a3,0(s0)
        add     a4,s0,a3
        bne     a5,a4,cfree.6
        lw      a4,0(a5)
        lw      a5,4(a5)
        add     a4,a4,a3
        sw      a4,0(s0)
        sw      a5,4(s0)
        j       cfree.6
cfree.5:
        bne     s0,a5,cfree.7
        li      a4,12
        sw      a4,100(tp)
cfree.6:
        addi    a0,s2,%lo(__lock___libc_recursive_mutex)
        jal     __retarget_lock_release_recursive
        j       __riscv_restore_3
cfree.7:
        addi    a4,a5,4
        lw      a5,4(a5)
        j       cfree.1
cfree.8:
        ret

__malloc_sbrk_aligned:
        jal     t0,__riscv_save_7
        bgez    a0,__malloc_sbrk_aligned.3
__malloc_sbrk_aligned.1:
        li      s2,-1
__malloc_sbrk_aligned.2:
        mv      a0,s2
        j       __riscv_restore_5
__malloc_sbrk_aligned.3:
        mv      s0,a0
        jal     sbrk
        li      a5,-1
        beq     a0,a5,__malloc_sbrk_aligned.1
        addi    s2,a0,11
        add     s0,a0,s0
        lui     s3,%hi(__malloc_sbrk_top)
        andi    s2,s2,-8
        sw      s0,%lo(__malloc_sbrk_top)(s3)
        addi    s2,s2,-4
        beq     a0,s2,__malloc_sbrk_aligned.4
        sub     s1,s2,a0
        mv      a0,s1
        jal     sbrk
        bne     s0,a0,__malloc_sbrk_aligned.1
        add     s0,s0,s1
        sw      s0,%lo(__malloc_sbrk_top)(s3)
__malloc_sbrk_aligned.4:
        lui     a5,%hi(__malloc_sbrk_start)
        lw      a4,%lo(__malloc_sbrk_start)(a5)
        bnez    a4,__malloc_sbrk_aligned.2
        sw      s2,%lo(__malloc_sbrk_start)(a5)
        j       __malloc_sbrk_aligned.2

__malloc_grow_chunk:
        jal     t0,__riscv_save_1
        lw      a5,0(a0)
        lui     a4,%hi(__malloc_sbrk_top)
        lw      a4,%lo(__malloc_sbrk_top)(a4)
        add     s2,a0,a5
        bne     a4,s2,__malloc_grow_chunk.4
        sub     s0,a1,a5
        li      a5,8
        mv      s1,a0
        bgeu    s0,a5,__malloc_grow_chunk.1
        li      s0,8
__malloc_grow_chunk.1:
        mv      a0,s0
        jal     __malloc_sbrk_aligned
        bne     a0,s2,__malloc_grow_chunk.3
        lw      a5,0(s1)
        li      a0,1
        add     a5,a5,s0
        sw      a5,0(s1)
__malloc_grow_chunk.2:
        j       __riscv_restore_3
__malloc_grow_chunk.3:
        li      a5,-1
        beq     a0,a5,__malloc_grow_chunk.4
        sw      s0,0(a0)
        addi    a0,a0,4
        jal     cfree
__malloc_grow_chunk.4:
        li      a0,0
        j       __malloc_grow_chunk.2

malloc:
__malloc_malloc:
        jal     t0,__riscv_save_7
        li      a5,-21
        bgeu    a5,a0,malloc.3
        li      a4,12
        sw      a4,100(tp)
malloc.1:
        li      s0,0
malloc.2:
        mv      a0,s0
        j       __riscv_restore_5
malloc.3:
        addi    a0,a0,7
        lui     s4,%hi(__lock___libc_recursive_mutex)
        andi    s1,a0,-8
        lui     s3,%hi(__malloc_free_list)
        addi    a0,s4,%lo(__lock___libc_recursive_mutex)
        addi    s2,s1,8
        jal     __retarget_lock_acquire_recursive
        addi    s3,s3,%lo(__malloc_free_list)
malloc.4:
        lw      s0,0(s3)
        bnez    s0,malloc.5
        mv      a0,s2
        jal     __malloc_sbrk_aligned
        li      a5,-1
        mv      s0,a0
        bne     a0,a5,malloc.6
        li      a4,12
        addi    a0,s4,%lo(__lock___libc_recursive_mutex)
        sw      a4,100(tp)
        jal     __retarget_lock_release_recursive
        j       malloc.1
malloc.5:
        lw      a5,0(s0)
        lw      a4,4(s0)
        bltu    a5,s2,malloc.9
        sub     a5,a5,s2
        li      a3,7
        bgeu    a3,a5,malloc.7
        add     a3,s0,s2
        sw      a5,0(a3)
        sw      a4,4(a3)
        sw      a3,0(s3)
malloc.6:
        sw      s2,0(s0)
        j       malloc.8
malloc.7:
        sw      a4,0(s3)
malloc.8:
        addi    a0,s4,%lo(__lock___libc_recursive_mutex)
        jal     __retarget_lock_release_recursive
        addi    s0,s0,4
        addi    a2,s1,4
        li      a1,0
        mv      a0,s0
        jal     memset
        j       malloc.2
malloc.9:
        bnez    a4,malloc.10
        mv      a1,s2
        mv      a0,s0
        jal     __malloc_grow_chunk
        beqz    a0,malloc.10
        lw      a5,4(s0)
        sw      a5,0(s3)
        j       malloc.8
malloc.10:
        addi    s3,s0,4
        j       malloc.4

__retarget_lock_acquire_recursive:
        ret

__retarget_lock_release_recursive:
        ret

signal:
        li      a5,31
        bgeu    a5,a0,signal.1
        li      a4,22
        sw      a4,100(tp)
        li      a0,-1
        ret
signal.1:
        slli    a0,a0,2
        addi    a5,tp,104
        add     a5,a5,a0
        lw      a0,0(a5)
        sw      a1,0(a5)
        ret

exit:
        jal     t0,__riscv_save_1
        li      a5,0
        mv      s0,a0
        beqz    a5,exit.1
        li      a1,0
        auipc   ra,0x0                  # %pcrel_hi(0x0)
        jalr    zero
exit.1:
        jal     __libc_fini_array
        mv      a0,s0
        jal     _exit

sbrk:
        mv      a5,a0
        lui     a3,%hi(brk)
        lw      a0,%lo(brk)(a3)
        bgez    a5,sbrk.2
        lui     a4,%hi(__heap_start)
        addi    a4,a4,%lo(__heap_start)
        sub     a4,a0,a4
        neg     a2,a5
        bge     a4,a2,sbrk.3
sbrk.1:
        li      a0,-1
        ret
sbrk.2:
        lui     a4,%hi(__heap_end)
        addi    a4,a4,%lo(__heap_end)
        sub     a4,a4,a0
        blt     a4,a5,sbrk.1
sbrk.3:
        add     a5,a0,a5
        sw      a5,%lo(brk)(a3)
        ret

printf:
        addi    sp,sp,-64
        sw      a5,52(sp)
        lui     a5,%hi(stdout)
        sw      a1,36(sp)
        mv      a1,a0
        lw      a0,%lo(stdout)(a5)
        sw      a2,40(sp)
        addi    a2,sp,36
        sw      ra,28(sp)
        sw      a3,44(sp)
        sw      a4,48(sp)
        sw      a6,56(sp)
        sw      a7,60(sp)
        sw      a2,12(sp)
        jal     vfprintf
        lw      ra,28(sp)
        addi    sp,sp,64
        ret

__ultoa_invert:
        andi    a5,a2,512
        mv      a4,a0
        li      a3,39
        mv      a0,a1
        beqz    a5,__ultoa_invert.1
        andi    a2,a2,-513
        li      a3,7
__ultoa_invert.1:
        li      a6,9
__ultoa_invert.2:
        remu    a5,a4,a2
        mv      a1,a4
        andi    a5,a5,255
        divu    a4,a4,a2
        bgeu    a6,a5,__ultoa_invert.3
        add     a5,a5,a3
        andi    a5,a5,255
__ultoa_invert.3:
        addi    a0,a0,1
        addi    a5,a5,48
        sb      a5,-1(a0)
        bgeu    a1,a2,__ultoa_invert.2
        ret

vfprintf:
__i_vfprintf:
        jal     t0,__riscv_save_12
        lbu     a5,4(a0)
        lw      s5,8(a0)
        addi    sp,sp,-32
        andi    a5,a5,2
        beqz    a5,vfprintf.42
        mv      s4,a0
        mv      s1,a2
        li      s2,0
        li      s8,37
vfprintf.1:
        lbu     s9,0(a1)
        beqz    s9,vfprintf.43
        addi    s7,a1,1
        bne     s9,s8,vfprintf.2
        lbu     s9,1(a1)
        addi    s7,a1,2
        bne     s9,s8,vfprintf.5
vfprintf.2:
        addi    s2,s2,1
vfprintf.3:
        mv      a1,s4
        mv      a0,s9
        jalr    s5
        bltz    a0,vfprintf.42
vfprintf.4:
        mv      a1,s7
        j       vfprintf.1
vfprintf.5:
        lui     a4,%hi(rodata.b0)
        li      s11,0
        li      s3,0
        li      s0,0
        li      a2,31
        li      a3,108
        li      a1,116
        li      a0,122
        li      a6,104
        li      a7,106
        li      t1,76
        li      t3,42
        li      t4,46
        li      t5,127
        li      t6,16
        li      t0,9
        addi    a4,a4,%lo(rodata.b0)
vfprintf.6:
        bltu    a2,s0,vfprintf.15
        addi    a5,s9,-32
        andi    a5,a5,255
        bltu    t6,a5,vfprintf.7
        slli    a5,a5,2
        add     a5,a5,a4
        lw      a5,0(a5)
        jr      a5
vfprintf.7:
        addi    a5,s9,-48
        andi    a5,a5,255
        bltu    t0,a5,vfprintf.16
vfprintf.8:
        li      t2,10
        mul     t2,s3,t2
        ori     s0,s0,32
        add     s3,t2,a5
        j       vfprintf.10
vfprintf.9:
        ori     s0,s0,1
vfprintf.10:
        lbu     s9,0(s7)
        addi    s7,s7,1
        bnez    s9,vfprintf.6
        j       vfprintf.20
vfprintf.11:
        ori     s0,s0,2
vfprintf.12:
        ori     s0,s0,4
        j       vfprintf.10
vfprintf.13:
        ori     s0,s0,8
        j       vfprintf.10
vfprintf.14:
        ori     s0,s0,16
        j       vfprintf.10
vfprintf.15:
        bltu    t5,s0,vfprintf.19
        addi    t2,s9,-48
        andi    t2,t2,255
        li      a5,9
        bltu    a5,t2,vfprintf.16
        andi    s6,s0,64
        mv      a5,t2
        beqz    s6,vfprintf.8
        li      a5,10
        mul     a5,s11,a5
        add     s11,a5,t2
        j       vfprintf.10
vfprintf.16:
        bne     s9,t3,vfprintf.18
        lw      a5,0(s1)
        addi    t2,s1,4
        andi    s1,s0,64
        bnez    s1,vfprintf.32
        bltz    a5,vfprintf.17
        ori     s0,s0,32
        mv      s1,t2
        mv      s3,a5
        j       vfprintf.10
vfprintf.17:
        neg     s3,a5
        ori     s0,s0,40
        mv      s1,t2
        j       vfprintf.10
vfprintf.18:
        bne     s9,t4,vfprintf.19
        andi    a5,s0,64
        bnez    a5,vfprintf.43
        ori     s0,s0,64
        j       vfprintf.10
vfprintf.19:
        beq     s9,a3,vfprintf.27
        bltu    a3,s9,vfprintf.26
        beq     s9,a6,vfprintf.29
        beq     s9,a7,vfprintf.31
        beq     s9,t1,vfprintf.31
vfprintf.20:
        bgez    s11,vfprintf.21
        andi    s0,s0,-65
        slli    s0,s0,16
        srli    s0,s0,16
        li      s11,0
vfprintf.21:
        ori     a4,s9,32
        addi    a5,a4,-101
        andi    a5,a5,255
        li      a3,2
        bgeu    a3,a5,vfprintf.22
        li      a5,97
        bne     a4,a5,vfprintf.33
vfprintf.22:
        addi    s1,s1,7
        andi    s1,s1,-8
        lui     s6,%hi(text.float)
        addi    s1,s1,8
        li      s9,7
        addi    s6,s6,%lo(text.float)
vfprintf.23:
        andi    s0,s0,8
        beqz    s0,vfprintf.40
vfprintf.24:
        li      s0,0
vfprintf.25:
        bne     s9,s0,vfprintf.41
        add     s0,s2,s9
        sub     s3,s3,s9
        j       vfprintf.79
vfprintf.26:
        beq     s9,a1,vfprintf.10
        beq     s9,a0,vfprintf.10
        j       vfprintf.20
vfprintf.27:
        andi    a5,s0,128
        beqz    a5,vfprintf.28
        ori     s0,s0,512
vfprintf.28:
        ori     s0,s0,128
        j       vfprintf.10
vfprintf.29:
        andi    a5,s0,256
        beqz    a5,vfprintf.30
        ori     s0,s0,512
vfprintf.30:
        ori     s0,s0,256
        j       vfprintf.10
vfprintf.31:
        ori     s0,s0,640
        j       vfprintf.10
vfprintf.32:
        mv      s1,t2
        mv      s11,a5
        j       vfprintf.10
vfprintf.33:
        addi    a5,s9,-99
        andi    a5,a5,255
        li      a3,18
        bltu    a3,a5,vfprintf.59
        lui     a3,%hi(rodata.f4)
        slli    a5,a5,2
        addi    a3,a3,%lo(rodata.f4)
        add     a5,a5,a3
        lw      a5,0(a5)
        jr      a5
vfprintf.34:
        lw      a5,0(s1)
        li      s9,1
        addi    s1,s1,4
        sb      a5,20(sp)
        addi    s6,sp,20
        j       vfprintf.23
vfprintf.35:
        lw      s6,0(s1)
        addi    s10,s1,4
        bnez    s6,vfprintf.36
        lui     s6,%hi(text.null)
        addi    s6,s6,%lo(text.null)
vfprintf.36:
        andi    a5,s0,64
        li      a1,-1
        beqz    a5,vfprintf.37
        mv      a1,s11
vfprintf.37:
        mv      a0,s6
        jal     strnlen
        mv      s9,a0
        mv      s1,s10
        j       vfprintf.23
vfprintf.38:
        mv      a1,s4
        li      a0,32
        jalr    s5
        bltz    a0,vfprintf.42
        addi    s0,s0,-1
vfprintf.39:
        bltu    s9,s0,vfprintf.38
        add     s2,s3,s2
        sub     s2,s2,s0
        mv      s3,s0
        j       vfprintf.24
vfprintf.40:
        mv      s0,s3
        j       vfprintf.39
vfprintf.41:
        add     a5,s6,s0
        lbu     a0,0(a5)
        mv      a1,s4
        addi    s0,s0,1
        jalr    s5
        bgez    a0,vfprintf.25
vfprintf.42:
        li      s2,-1
vfprintf.43:
        mv      a0,s2
        addi    sp,sp,32
        j       __riscv_restore_12
vfprintf.44:
        andi    a5,s0,128
        beqz    a5,vfprintf.49
        andi    a5,s0,512
        addi    s6,s1,4
        beqz    a5,vfprintf.45
        addi    s1,s1,7
        andi    s1,s1,-8
        addi    s6,s1,8
vfprintf.45:
        lw      a0,0(s1)
vfprintf.46:
        andi    s1,s0,-17
        slli    s1,s1,16
        srli    s1,s1,16
        bgez    a0,vfprintf.51
        neg     a0,a0
        ori     s1,s1,1024
vfprintf.47:
        addi    s0,sp,20
        li      a2,10
vfprintf.48:
        mv      a1,s0
        jal     __ultoa_invert
        andi    a5,s1,64
        sub     s0,a0,s0
        beqz    a5,vfprintf.57
        andi    a4,s1,-2
        slli    a4,a4,16
        srli    a4,a4,16
        bge     s0,s11,vfprintf.67
        beqz    s9,vfprintf.66
        andi    a5,s1,16
        bnez    a5,vfprintf.68
        mv      s10,s11
        mv      s1,a4
        j       vfprintf.52
vfprintf.49:
        andi    a5,s0,256
        lw      a0,0(s1)
        addi    s6,s1,4
        beqz    a5,vfprintf.46
        andi    a5,s0,512
        beqz    a5,vfprintf.50
        slli    a0,a0,24
        srai    a0,a0,24
        j       vfprintf.46
vfprintf.50:
        slli    a0,a0,16
        srai    a0,a0,16
        j       vfprintf.46
vfprintf.51:
        bnez    a0,vfprintf.47
        andi    a5,s0,64
        beqz    a5,vfprintf.47
        bnez    s11,vfprintf.47
        andi    s1,s0,-18
        slli    s1,s1,16
        srli    s1,s1,16
        li      s0,0
        li      s10,0
vfprintf.52:
        andi    a5,s1,1030
        beqz    a5,vfprintf.70
        addi    s10,s10,1
        li      a5,0
        j       vfprintf.70
vfprintf.53:
        andi    s0,s0,-17
        slli    s0,s0,16
        srli    s0,s0,16
        li      a2,10
vfprintf.54:
        andi    a5,s0,128
        beqz    a5,vfprintf.62
        andi    a5,s0,512
        addi    s6,s1,4
        beqz    a5,vfprintf.55
        addi    s1,s1,7
        andi    s1,s1,-8
        addi    s6,s1,8
vfprintf.55:
        lw      a0,0(s1)
vfprintf.56:
        bnez    a0,vfprintf.64
        andi    s1,s0,-23
        slli    s1,s1,16
        andi    a5,s0,64
        srli    s1,s1,16
        beqz    a5,vfprintf.65
        bnez    s11,vfprintf.65
        andi    s1,s0,-24
        slli    s1,s1,16
        srli    s1,s1,16
        li      s0,0
vfprintf.57:
        andi    a5,s1,16
        beqz    a5,vfprintf.72
        addi    s10,s0,1
        beqz    s9,vfprintf.70
        mv      a3,s0
        j       vfprintf.69
vfprintf.58:
        ori     s0,s0,16
        li      a2,16
        li      s9,120
        j       vfprintf.54
vfprintf.59:
        li      a5,120
        bne     a4,a5,vfprintf.60
        li      a5,88
        li      a2,16
        bne     s9,a5,vfprintf.54
        li      a2,528
        j       vfprintf.54
vfprintf.60:
        mv      a1,s4
        li      a0,37
        jalr    s5
        bltz    a0,vfprintf.42
        addi    s2,s2,2
        j       vfprintf.3
vfprintf.61:
        li      a2,8
        li      s9,0
        j       vfprintf.54
vfprintf.62:
        andi    a5,s0,256
        lw      a0,0(s1)
        addi    s6,s1,4
        beqz    a5,vfprintf.56
        andi    a5,s0,512
        beqz    a5,vfprintf.63
        andi    a0,a0,255
        j       vfprintf.56
vfprintf.63:
        slli    a0,a0,16
        srli    a0,a0,16
        j       vfprintf.56
vfprintf.64:
        andi    s0,s0,-7
        slli    s1,s0,16
        srli    s1,s1,16
vfprintf.65:
        addi    s0,sp,20
        j       vfprintf.48
vfprintf.66:
        andi    s1,s1,-18
        slli    s1,s1,16
        srli    s1,s1,16
        mv      s10,s11
        j       vfprintf.52
vfprintf.67:
        mv      s1,a4
        j       vfprintf.57
vfprintf.68:
        mv      a3,s0
        mv      s1,a4
        mv      s0,s11
vfprintf.69:
        addi    s10,s0,2
        mv      s0,a3
vfprintf.70:
        andi    a4,s1,8
        bnez    a4,vfprintf.75
        andi    a4,s1,1
        beqz    a4,vfprintf.71
        mv      s11,s0
        bge     s10,s3,vfprintf.71
        sub     s10,s3,s10
        add     s11,s10,s0
        mv      s10,s3
vfprintf.71:
        mv      a4,s10
        j       vfprintf.74
vfprintf.72:
        mv      s10,s0
        j       vfprintf.52
vfprintf.73:
        mv      a1,s4
        li      a0,32
        sw      a5,12(sp)
        sw      a4,8(sp)
        jalr    s5
        bltz    a0,vfprintf.42
        lw      a4,8(sp)
        lw      a5,12(sp)
        addi    a4,a4,1
vfprintf.74:
        blt     a4,s3,vfprintf.73
        sub     s10,s2,s10
        add     s2,s10,a4
        mv      s10,a4
vfprintf.75:
        beqz    a5,vfprintf.82
        mv      a1,s4
        li      a0,48
        jalr    s5
        bltz    a0,vfprintf.42
        bnez    s9,vfprintf.80
        addi    s2,s2,1
vfprintf.76:
        add     s11,s2,s11
vfprintf.77:
        sub     a5,s11,s2
        blt     s0,a5,vfprintf.85
        mv      s1,s0
vfprintf.78:
        bnez    s1,vfprintf.86
        add     s0,s0,s2
        sub     s3,s3,s10
        mv      s1,s6
vfprintf.79:
        mv      s2,s0
        add     s3,s0,s3
        j       vfprintf.88
vfprintf.80:
        addi    s2,s2,2
        mv      a1,s4
        mv      a0,s9
vfprintf.81:
        jalr    s5
        bgez    a0,vfprintf.76
        j       vfprintf.42
vfprintf.82:
        andi    a5,s1,1030
        beqz    a5,vfprintf.76
        andi    a5,s1,2
        li      a0,32
        beqz    a5,vfprintf.83
        li      a0,43
vfprintf.83:
        andi    s1,s1,1024
        beqz    s1,vfprintf.84
        li      a0,45
vfprintf.84:
        addi    s2,s2,1
        mv      a1,s4
        j       vfprintf.81
vfprintf.85:
        mv      a1,s4
        li      a0,48
        addi    s2,s2,1
        jalr    s5
        bgez    a0,vfprintf.77
        j       vfprintf.42
vfprintf.86:
        addi    s1,s1,-1
        addi    a5,sp,20
        add     a5,a5,s1
        lbu     a0,0(a5)
        mv      a1,s4
        jalr    s5
        bgez    a0,vfprintf.78
        j       vfprintf.42
vfprintf.87:
        mv      a1,s4
        li      a0,32
        addi    s2,s2,1
        jalr    s5
        bltz    a0,vfprintf.42
vfprintf.88:
        sub     a5,s3,s2
        bgtz    a5,vfprintf.87
        j       vfprintf.4

__libc_fini_array:
        jal     t0,__riscv_save_1
        li      a4,0
        li      s0,0
        sub     s0,s0,a4
        srai    s0,s0,2
        li      s1,0
__libc_fini_array.1:
        bnez    s0,__libc_fini_array.3
        li      a5,0
        beqz    a5,__libc_fini_array.2
        auipc   ra,0x0                  # %pcrel_hi(0x0)
        jalr    zero
__libc_fini_array.2:
        j       __riscv_restore_3
__libc_fini_array.3:
        addi    s0,s0,-1
        slli    a5,s0,2
        add     a5,s1,a5
        lw      a5,0(a5)
        jalr    a5
        j       __libc_fini_array.1

strnlen:
        add     a1,a0,a1
        mv      a5,a0
strnlen.1:
        beq     a5,a1,strnlen.2
        lbu     a4,0(a5)
        bnez    a4,strnlen.3
strnlen.2:
        sub     a0,a5,a0
        ret
strnlen.3:
        addi    a5,a5,1
        j       strnlen.1

__riscv_save_12:
        addi    sp,sp,-64
        li      t1,0
        sw      s11,12(sp)
        j       __riscv_save_8.1

__riscv_save_8:
__riscv_save_11:
__riscv_save_9:
__riscv_save_10:
        addi    sp,sp,-64
        li      t1,-16
__riscv_save_8.1:
        sw      s10,16(sp)
        sw      s9,20(sp)
        sw      s8,24(sp)
        sw      s7,28(sp)
        j       __riscv_save_7.1

__riscv_save_7:
__riscv_save_4:
__riscv_save_6:
__riscv_save_5:
        addi    sp,sp,-64
        li      t1,-32
__riscv_save_7.1:
        sw      s6,32(sp)
        sw      s5,36(sp)
        sw      s4,40(sp)
        sw      s3,44(sp)
        sw      s2,48(sp)
        sw      s1,52(sp)
        sw      s0,56(sp)
        sw      ra,60(sp)
        sub     sp,sp,t1
        jr      t0

__riscv_save_1:
__riscv_save_3:
__riscv_save_2:
__riscv_save_0:
        addi    sp,sp,-16
        sw      s2,0(sp)
        sw      s1,4(sp)
        sw      s0,8(sp)
        sw      ra,12(sp)
        jr      t0

__riscv_restore_12:
        lw      s11,12(sp)
        addi    sp,sp,16

__riscv_restore_10:
__riscv_restore_11:
__riscv_restore_8:
__riscv_restore_9:
        lw      s10,0(sp)
        lw      s9,4(sp)
        lw      s8,8(sp)
        lw      s7,12(sp)
        addi    sp,sp,16

__riscv_restore_5:
__riscv_restore_6:
__riscv_restore_4:
__riscv_restore_7:
        lw      s6,0(sp)
        lw      s5,4(sp)
        lw      s4,8(sp)
        lw      s3,12(sp)
        addi    sp,sp,16

__riscv_restore_3:
__riscv_restore_2:
__riscv_restore_0:
__riscv_restore_1:
        lw      s2,0(sp)
        lw      s1,4(sp)
        lw      s0,8(sp)
        lw      ra,12(sp)
        addi    sp,sp,16
        ret
        .space  4

        .rodata
text.0123456789abcdef:
        .asciz  "0123456789abcdef"
        .space  3
text.trap_cause:
        .asciz  "\ntrap cause="
        .space  3
text.epc:
        .asciz  " epc="
        .space  2
text.tval:
        .asciz  " tval="
        .space  1
stdout:
        .word   serial
text.kept:
        .asciz  "kept"
        .space  3
text.overwritten:
        .asciz  "overwritten"
text.s_s:
        .asciz  "%s: %s\n"
text.no_name:
        .asciz  "no name"
text.variables:
        .asciz  "variables"
        .space  2
text.heap:
        .asciz  "heap"
        .space  3
text.section:
        .asciz  "section"
text.thread:
        .asciz  "thread"
        .space  1
text.aligned_d:
        .asciz  "aligned: %d\n"
        .space  3
text.argv_d_s:
        .ascii  "argv: %d, %s"
text:
        .asciz  "\n"
        .space  2
text.null:
        .asciz  "(null)"
        .space  1
text.float:
        .asciz  "*float*"
rodata.b0:
        .word   vfprintf.12,vfprintf.7,vfprintf.7,vfprintf.14
        .word   vfprintf.7,vfprintf.7,vfprintf.7,vfprintf.10
        .word   vfprintf.7,vfprintf.7,vfprintf.7,vfprintf.11
        .word   vfprintf.7,vfprintf.13,vfprintf.7,vfprintf.7
        .word   vfprintf.9
rodata.f4:
        .word   vfprintf.34,vfprintf.44,vfprintf.59,vfprintf.59
        .word   vfprintf.59,vfprintf.59,vfprintf.44,vfprintf.59
        .word   vfprintf.59,vfprintf.59,vfprintf.59,vfprintf.59
        .word   vfprintf.61,vfprintf.58,vfprintf.59,vfprintf.59
        .word   vfprintf.35,vfprintf.59,vfprintf.53

        .data
name.0:
__init_array_end:
__preinit_array_end:
__init_array_start:
__preinit_array_start:
        .asciz  "program"
arguments.1:
        .word   name.0,0
serial:
        .word   0,3,put,get,0
brk:
        .word   __heap_start
        .space  72
__tls_base:
        .space  232

        .bss
of_all:
__bss_start:
        .space  8
__malloc_sbrk_top:
        .space  4
__malloc_sbrk_start:
        .space  4
__malloc_free_list:
        .space  4
__lock___libc_recursive_mutex:
        .space  1
        .space  3

        .section .noinit
of_section:
__bss_end:
        .space  100
