# Made by elf2s of shapes.elf: 4568 bytes, entry _start.
        .equ    __heap_end,0x800fc000
        .equ    __stack_top,0x80100000

        .text

_start:
        la      t0,first_trap
        csrw    mtvec,t0
        la      sp,__stack_top
        la      tp,__tls_base
        call    board_init
        mv      a1,a0
        li      a0,1
        call    main
        tail    exit

first_trap:
        la      sp,__stack_top
        csrr    a0,mcause
        csrr    a1,mepc
        csrr    a2,mtval
        tail    board_trap

put:
put.17:                 # board.c:17  {
put.18:                 # board.c:18      (void)file;
put.19:                 # board.c:19      SERIAL_TRANSMIT = (uint8_t)c;
        li      a4,0x10000000
        sb      a0,0(a4)
put.20:                 # board.c:20      return (unsigned char)c;
        ret

get:
get.25:                 # board.c:25  {
        li      a5,0x10000000
get.26:                 # board.c:26      uint32_t byte;
get.27:                 # board.c:27      (void)file;
get.28:                 # board.c:28      do byte = SERIAL_RECEIVE; while (byte >> 31);
        lw      a0,4(a5)
        bltz    a0,get.26
get.29:                 # board.c:29      return byte == END_OF_INPUT ? _FDEV_EOF : (int)byte;
        li      a5,4
        bne     a0,a5,get.30
        li      a0,-2
get.30:                 # board.c:30  }
        ret

put_word:
put_word.62:            # board.c:62  {
put_word.63:            # board.c:63      put_text(name);
put_word.58:            # board.c:58      while (*text) SERIAL_TRANSMIT = (uint8_t)*text++;
        li      a4,0x10000000
put_word.58.2:          # board.c:58      while (*text) SERIAL_TRANSMIT = (uint8_t)*text++;
        lbu     a5,0(a0)
        bnez    a5,put_word.58.3
        lui     a3,%hi(text.0123456789abcdef)
        li      a4,28
        addi    a3,a3,%lo(text.0123456789abcdef)
        li      a0,0x10000000
        li      a2,-4
put_word.64:            # board.c:64      for (int shift = 28; shift >= 0; shift -= 4) SERIAL_TRANSMIT = (uint8_t)"0123456789abcdef"[word >> shift & 15];
        srl     a5,a1,a4
        andi    a5,a5,15
        add     a5,a3,a5
        lbu     a5,0(a5)
        addi    a4,a4,-4
        sb      a5,0(a0)
        bne     a4,a2,put_word.64
        ret
put_word.58.3:          # board.c:58      while (*text) SERIAL_TRANSMIT = (uint8_t)*text++;
        addi    a0,a0,1
        sb      a5,0(a4)
        j       put_word.58.2

board_init:
board_init.44:          # board.c:44  {
board_init.45:          # board.c:45      static char name[] = "program", *arguments[] = { name, NULL };
board_init.46:          # board.c:46      for (constructor **it = __preinit_array_start; it != __preinit_array_end; it++) (*it)();
        addi    sp,sp,-16
        sw      s0,8(sp)
        sw      s1,4(sp)
        lui     s0,%hi(__preinit_array_start)
        lui     s1,%hi(__preinit_array_end)
        sw      ra,12(sp)
        addi    s0,s0,%lo(__preinit_array_start)
        addi    s1,s1,%lo(__preinit_array_end)
board_init.46.2:        # board.c:46      for (constructor **it = __preinit_array_start; it != __preinit_array_end; it++) (*it)();
        bne     s0,s1,board_init.46.3
        lui     s0,%hi(__init_array_start)
        lui     s1,%hi(__init_array_end)
        addi    s0,s0,%lo(__init_array_start)
        addi    s1,s1,%lo(__init_array_end)
board_init.47:          # board.c:47      for (constructor **it = __init_array_start; it != __init_array_end; it++) (*it)();
        bne     s0,s1,board_init.47.2
board_init.48:          # board.c:48      return arguments;
        lw      ra,12(sp)
        lw      s0,8(sp)
        lui     a0,%hi(arguments.1)
        lw      s1,4(sp)
        addi    a0,a0,%lo(arguments.1)
        addi    sp,sp,16
        ret
board_init.46.3:        # board.c:46      for (constructor **it = __preinit_array_start; it != __preinit_array_end; it++) (*it)();
        lw      a5,0(s0)
        addi    s0,s0,4
        jalr    a5
        j       board_init.46.2
board_init.47.2:        # board.c:47      for (constructor **it = __init_array_start; it != __init_array_end; it++) (*it)();
        lw      a5,0(s0)
        addi    s0,s0,4
        jalr    a5
        j       board_init.47

_exit:
_exit.52:               # board.c:52  {
        beqz    a0,_exit.53.3
        li      a5,0x3000
        slli    a0,a0,16
        addi    a5,a5,819
        or      a0,a0,a5
_exit.53.2:             # board.c:53      for (;;) HALT = code ? (uint32_t)code << 16 | 0x3333 : 0x5555;
        li      a5,0x100000
_exit.53:               # board.c:53      for (;;) HALT = code ? (uint32_t)code << 16 | 0x3333 : 0x5555;
        sw      a0,0(a5)
        j       _exit.53
_exit.53.3:
        li      a0,0x5555
        j       _exit.53.2

board_trap:
board_trap.68:          # board.c:68  {
board_trap.69:          # board.c:69      put_word("\ntrap cause=", cause);
        addi    sp,sp,-16
        sw      s0,8(sp)
        sw      s2,0(sp)
        mv      s0,a0
        mv      s2,a1
        mv      a1,a0
        lui     a0,%hi(text.trap_cause)
        addi    a0,a0,%lo(text.trap_cause)
        sw      ra,12(sp)
        sw      s1,4(sp)
        mv      s1,a2
        jal     put_word
board_trap.70:          # board.c:70      put_word(" epc=", epc);
        lui     a0,%hi(text.epc)
        mv      a1,s2
        addi    a0,a0,%lo(text.epc)
        jal     put_word
board_trap.71:          # board.c:71      put_word(" tval=", tval);
        lui     a0,%hi(text.tval)
        mv      a1,s1
        addi    a0,a0,%lo(text.tval)
        jal     put_word
board_trap.72:          # board.c:72      put_text("\n");
board_trap.58:          # board.c:58      while (*text) SERIAL_TRANSMIT = (uint8_t)*text++;
        lui     a5,%hi(text)
        addi    a5,a5,%lo(text)
        li      a3,0x10000000
board_trap.58.2:        # board.c:58      while (*text) SERIAL_TRANSMIT = (uint8_t)*text++;
        lbu     a4,0(a5)
        bnez    a4,board_trap.58.3
board_trap.73:          # board.c:73      _exit(128 + (int)(cause & 31));
        andi    a0,s0,31
        addi    a0,a0,128
        jal     _exit
board_trap.58.3:        # board.c:58      while (*text) SERIAL_TRANSMIT = (uint8_t)*text++;
        addi    a5,a5,1
        sb      a4,0(a3)
        j       board_trap.58.2

getpid:
getpid.112:             # board.c:112  WEAK int getpid(void) { return 1; }
        li      a0,1
        ret

kill:
kill.113:               # board.c:113  WEAK int kill(int process, int signal) { (void)process; _exit(128 + signal); }
        addi    sp,sp,-16
        addi    a0,a1,128
        sw      ra,12(sp)
        jal     _exit

operator_new_unsigned_int_:
operator_new_unsigned_int_.135: # board.c:135  {
operator_new_unsigned_int_.136: # board.c:136      void *room = malloc(size ? size : 1);
        addi    sp,sp,-16
        sw      ra,12(sp)
        bnez    a0,operator_new_unsigned_int_.136.2
        li      a0,1
operator_new_unsigned_int_.136.2:
        jal     malloc
operator_new_unsigned_int_.137: # board.c:137      if (!room) abort();
        bnez    a0,operator_new_unsigned_int_.139
        jal     abort
operator_new_unsigned_int_.139: # board.c:139  }
        lw      ra,12(sp)
        addi    sp,sp,16
        ret

operator_delete_void___unsigned_int_:
operator_delete_void___unsigned_int_.143: # board.c:143  WEAK void _ZdlPvj(void *room, size_t size) { (void)size; free(room); }
        j       cfree

__cxa_pure_virtual:
__cxa_pure_virtual.146: # board.c:146  WEAK void __cxa_pure_virtual(void) { abort(); }
        addi    sp,sp,-16
        sw      ra,12(sp)
        jal     abort

geometry.Square.area___const:
geometry.Square.area___const.16: # shapes.cc:16      int area() const override { return side * side; }
        lw      a0,8(a0)
        mul     a0,a0,a0
        ret

geometry.Strip.area___const:
geometry.Strip.area___const.22: # shapes.cc:22      int area() const override { return length; }
        lw      a0,8(a0)
        ret

geometry.Strip._Strip__:
geometry.Strip._Strip__.19: # shapes.cc:19  struct Strip : Shape {
        lui     a5,%hi(vtable_for_geometry.Strip+8)
        addi    a5,a5,%lo(vtable_for_geometry.Strip+8)
        sw      a5,0(a0)
        lui     a5,%hi(vtable_for_geometry.Shape+8)
        addi    a5,a5,%lo(vtable_for_geometry.Shape+8)
        sw      a5,0(a0)
        ret

geometry.Square._Square__:
geometry.Square._Square__.13: # shapes.cc:13  struct Square : Shape {
        lui     a5,%hi(vtable_for_geometry.Square+8)
        addi    a5,a5,%lo(vtable_for_geometry.Square+8)
        sw      a5,0(a0)
        lui     a5,%hi(vtable_for_geometry.Shape+8)
        addi    a5,a5,%lo(vtable_for_geometry.Shape+8)
        sw      a5,0(a0)
        ret

__static_initialization_and_destruction_0_int__int_:
__static_initialization_and_destruction_0_int__int_.48: # shapes.cc:48  }
        li      a5,1
        beq     a0,a5,__static_initialization_and_destruction_0_int__int_.48.3
__static_initialization_and_destruction_0_int__int_.48.2:
        ret
__static_initialization_and_destruction_0_int__int_.48.3:
        li      a5,0xffff
        bne     a1,a5,__static_initialization_and_destruction_0_int__int_.48.2
        lui     a5,%hi(counter)
        li      a4,40
        sw      a4,%lo(counter)(a5)
        j       __static_initialization_and_destruction_0_int__int_.48.2

geometry.Square._Square__.2:
geometry.Square._Square__.2.13: # shapes.cc:13  struct Square : Shape {
        addi    sp,sp,-16
        sw      ra,12(sp)
        lui     a4,%hi(vtable_for_geometry.Square+8)
        addi    a4,a4,%lo(vtable_for_geometry.Square+8)
        sw      a4,0(a0)
        lui     a4,%hi(vtable_for_geometry.Shape+8)
        addi    a4,a4,%lo(vtable_for_geometry.Shape+8)
        sw      a4,0(a0)
        li      a1,12
        jal     operator_delete_void___unsigned_int_
        lw      ra,12(sp)
        addi    sp,sp,16
        ret

geometry.Strip._Strip__.2:
geometry.Strip._Strip__.2.19: # shapes.cc:19  struct Strip : Shape {
        addi    sp,sp,-16
        sw      ra,12(sp)
        lui     a4,%hi(vtable_for_geometry.Strip+8)
        addi    a4,a4,%lo(vtable_for_geometry.Strip+8)
        sw      a4,0(a0)
        lui     a4,%hi(vtable_for_geometry.Shape+8)
        addi    a4,a4,%lo(vtable_for_geometry.Shape+8)
        sw      a4,0(a0)
        li      a1,12
        jal     operator_delete_void___unsigned_int_
        lw      ra,12(sp)
        addi    sp,sp,16
        ret

int_larger_int__int__int_:
int_larger_int__int__int_.27: # shapes.cc:27  template <typename T> T larger(T a, T b) { return a < b ? b : a; }
        bge     a0,a1,int_larger_int__int__int_.27.2
        mv      a0,a1
int_larger_int__int__int_.27.2:
        ret

main:
main.37:                # shapes.cc:37  {
        addi    sp,sp,-48
        sw      ra,44(sp)
        sw      s0,40(sp)
        sw      s1,36(sp)
        sw      s2,32(sp)
        sw      s3,28(sp)
main.38:                # shapes.cc:38      geometry::Shape *shapes[] = { new geometry::Square(5), new geometry::Strip(7) };
        li      a0,12
        jal     operator_new_unsigned_int_
        lui     s0,%hi(vtable_for_geometry.Shape+8)
        addi    s0,s0,%lo(vtable_for_geometry.Shape+8)
        sw      s0,0(a0)
        lui     a5,%hi(text.square)
        addi    a5,a5,%lo(text.square)
        sw      a5,4(a0)
        lui     a5,%hi(vtable_for_geometry.Square+8)
        addi    a5,a5,%lo(vtable_for_geometry.Square+8)
        sw      a5,0(a0)
        li      a5,5
        sw      a5,8(a0)
        sw      a0,8(sp)
        li      a0,12
        jal     operator_new_unsigned_int_
        sw      s0,0(a0)
        lui     a5,%hi(text.strip)
        addi    a5,a5,%lo(text.strip)
        sw      a5,4(a0)
        lui     a5,%hi(vtable_for_geometry.Strip+8)
        addi    a5,a5,%lo(vtable_for_geometry.Strip+8)
        sw      a5,0(a0)
        li      a5,7
        sw      a5,8(a0)
        sw      a0,12(sp)
main.39:                # shapes.cc:39      int most = 0;
main.40:                # shapes.cc:40      for (geometry::Shape *shape : shapes) {
        addi    s1,sp,8
        li      s2,0
        j       main.40.3
main.40.2:              # shapes.cc:40      for (geometry::Shape *shape : shapes) {
        addi    s1,s1,4
main.40.3:              # shapes.cc:40      for (geometry::Shape *shape : shapes) {
        addi    a5,sp,16
        beq     s1,a5,main.46
        lw      s0,0(s1)
main.41:                # shapes.cc:41          printf("%s %d\n", shape->name, shape->area());
        lw      s3,4(s0)
        lw      a5,0(s0)
        lw      a5,8(a5)
        mv      a0,s0
        jalr    a5
        mv      a2,a0
        mv      a1,s3
        lui     a0,%hi(text.s_d)
        addi    a0,a0,%lo(text.s_d)
        jal     printf
main.42:                # shapes.cc:42          most = larger(most, shape->area());
        lw      a5,0(s0)
        lw      a5,8(a5)
        mv      a0,s0
        jalr    a5
        mv      a1,a0
        mv      a0,s2
        jal     int_larger_int__int__int_
        mv      s2,a0
main.43:                # shapes.cc:43          counter.count += weights[2];
        lui     a4,%hi(counter)
        lw      a5,%lo(counter)(a4)
        addi    a5,a5,300
        sw      a5,%lo(counter)(a4)
main.44:                # shapes.cc:44          delete shape;
        beqz    s0,main.40.2
        lw      a5,0(s0)
        lw      a5,4(a5)
        mv      a0,s0
        jalr    a5
        j       main.40.2
main.46:                # shapes.cc:46      printf("%d %d\n", most, counter.count);
        lui     s0,%hi(counter)
        lw      a2,%lo(counter)(s0)
        mv      a1,s2
        lui     a0,%hi(text.d_d)
        addi    a0,a0,%lo(text.d_d)
        jal     printf
main.47:                # shapes.cc:47      return counter.count == 640 ? 0 : 1;
        lw      a0,%lo(counter)(s0)
        addi    a0,a0,-640
        snez    a0,a0
        lw      ra,44(sp)
        lw      s0,40(sp)
        lw      s1,36(sp)
        lw      s2,32(sp)
        lw      s3,28(sp)
        addi    sp,sp,48
        ret

_GLOBAL__sub_I_main:
_GLOBAL__sub_I_main.48: # shapes.cc:48  }
        addi    sp,sp,-16
        sw      ra,12(sp)
        li      a1,0xffff
        li      a0,1
        jal     __static_initialization_and_destruction_0_int__int_
        lw      ra,12(sp)
        addi    sp,sp,16
        ret

cfree:
free:
__malloc_free:
        beqz    a0,cfree.8
        jal     t0,__riscv_save_1
        lui     s2,%hi(__lock___libc_recursive_mutex)
        sw      zero,0(a0)
        mv      s1,a0
        addi    s0,a0,-4
        addi    a0,s2,%lo(__lock___libc_recursive_mutex)
        jal     __retarget_lock_acquire_recursive
        lui     a4,%hi(__malloc_free_list)
        lw      a5,%lo(__malloc_free_list)(a4)
        addi    a4,a4,%lo(__malloc_free_list)
cfree.1:
        bnez    a5,cfree.3
cfree.2:
        sw      a5,0(s1)
        sw      s0,0(a4)
        j       cfree.4
cfree.3:
        bltu    s0,a5,cfree.2
        lw      a3,0(a5)
        add     a4,a5,a3
        bne     s0,a4,cfree.5
        lw      a4,-4(s1)
        mv      s0,a5
        add     a4,a4,a3
        sw      a4,0(a5)
        lw      a5,4(a5)
cfree.4:
        lw      a3,0(s0)
        add     a4,s0,a3
        bne     a5,a4,cfree.6
        lw      a4,0(a5)
        lw      a5,4(a5)
        add     a4,a4,a3
        sw      a4,0(s0)
        sw      a5,4(s0)
        j       cfree.6
cfree.5:
        bne     s0,a5,cfree.7
        li      a4,12
        sw      a4,0(tp)
cfree.6:
        addi    a0,s2,%lo(__lock___libc_recursive_mutex)
        jal     __retarget_lock_release_recursive
        j       __riscv_restore_3
cfree.7:
        addi    a4,a5,4
        lw      a5,4(a5)
        j       cfree.1
cfree.8:
        ret

__malloc_sbrk_aligned:
        jal     t0,__riscv_save_7
        bgez    a0,__malloc_sbrk_aligned.3
__malloc_sbrk_aligned.1:
        li      s2,-1
__malloc_sbrk_aligned.2:
        mv      a0,s2
        j       __riscv_restore_5
__malloc_sbrk_aligned.3:
        mv      s0,a0
        jal     sbrk
        li      a5,-1
        beq     a0,a5,__malloc_sbrk_aligned.1
        addi    s2,a0,11
        add     s0,a0,s0
        lui     s3,%hi(__malloc_sbrk_top)
        andi    s2,s2,-8
        sw      s0,%lo(__malloc_sbrk_top)(s3)
        addi    s2,s2,-4
        beq     a0,s2,__malloc_sbrk_aligned.4
        sub     s1,s2,a0
        mv      a0,s1
        jal     sbrk
        bne     s0,a0,__malloc_sbrk_aligned.1
        add     s0,s0,s1
        sw      s0,%lo(__malloc_sbrk_top)(s3)
__malloc_sbrk_aligned.4:
        lui     a5,%hi(__malloc_sbrk_start)
        lw      a4,%lo(__malloc_sbrk_start)(a5)
        bnez    a4,__malloc_sbrk_aligned.2
        sw      s2,%lo(__malloc_sbrk_start)(a5)
        j       __malloc_sbrk_aligned.2

__malloc_grow_chunk:
        jal     t0,__riscv_save_1
        lw      a5,0(a0)
        lui     a4,%hi(__malloc_sbrk_top)
        lw      a4,%lo(__malloc_sbrk_top)(a4)
        add     s2,a0,a5
        bne     a4,s2,__malloc_grow_chunk.4
        sub     s0,a1,a5
        li      a5,8
        mv      s1,a0
        bgeu    s0,a5,__malloc_grow_chunk.1
        li      s0,8
__malloc_grow_chunk.1:
        mv      a0,s0
        jal     __malloc_sbrk_aligned
        bne     a0,s2,__malloc_grow_chunk.3
        lw      a5,0(s1)
        li      a0,1
        add     a5,a5,s0
        sw      a5,0(s1)
__malloc_grow_chunk.2:
        j       __riscv_restore_3
__malloc_grow_chunk.3:
        li      a5,-1
        beq     a0,a5,__malloc_grow_chunk.4
        sw      s0,0(a0)
        addi    a0,a0,4
        jal     cfree
__malloc_grow_chunk.4:
        li      a0,0
        j       __malloc_grow_chunk.2

malloc:
__malloc_malloc:
        jal     t0,__riscv_save_7
        li      a5,-21
        bgeu    a5,a0,malloc.3
        li      a4,12
        sw      a4,0(tp)
malloc.1:
        li      s0,0
malloc.2:
        mv      a0,s0
        j       __riscv_restore_5
malloc.3:
        addi    a0,a0,7
        lui     s4,%hi(__lock___libc_recursive_mutex)
        andi    s1,a0,-8
        lui     s3,%hi(__malloc_free_list)
        addi    a0,s4,%lo(__lock___libc_recursive_mutex)
        addi    s2,s1,8
        jal     __retarget_lock_acquire_recursive
        addi    s3,s3,%lo(__malloc_free_list)
malloc.4:
        lw      s0,0(s3)
        bnez    s0,malloc.5
        mv      a0,s2
        jal     __malloc_sbrk_aligned
        li      a5,-1
        mv      s0,a0
        bne     a0,a5,malloc.6
        li      a4,12
        addi    a0,s4,%lo(__lock___libc_recursive_mutex)
        sw      a4,0(tp)
        jal     __retarget_lock_release_recursive
        j       malloc.1
malloc.5:
        lw      a5,0(s0)
        lw      a4,4(s0)
        bltu    a5,s2,malloc.9
        sub     a5,a5,s2
        li      a3,7
        bgeu    a3,a5,malloc.7
        add     a3,s0,s2
        sw      a5,0(a3)
        sw      a4,4(a3)
        sw      a3,0(s3)
malloc.6:
        sw      s2,0(s0)
        j       malloc.8
malloc.7:
        sw      a4,0(s3)
malloc.8:
        addi    a0,s4,%lo(__lock___libc_recursive_mutex)
        jal     __retarget_lock_release_recursive
        addi    s0,s0,4
        addi    a2,s1,4
        li      a1,0
        mv      a0,s0
        jal     memset
        j       malloc.2
malloc.9:
        bnez    a4,malloc.10
        mv      a1,s2
        mv      a0,s0
        jal     __malloc_grow_chunk
        beqz    a0,malloc.10
        lw      a5,4(s0)
        sw      a5,0(s3)
        j       malloc.8
malloc.10:
        addi    s3,s0,4
        j       malloc.4

__retarget_lock_acquire_recursive:
        ret

__retarget_lock_release_recursive:
        ret

abort:
        jal     t0,__riscv_save_1
        li      a0,6
        jal     raise
        li      a0,1
        jal     _exit

exit:
        jal     t0,__riscv_save_1
        li      a5,0
        mv      s0,a0
        beqz    a5,exit.1
        li      a1,0
        auipc   ra,0x0                  # %pcrel_hi(0x0)
        jalr    zero
exit.1:
        jal     __libc_fini_array
        mv      a0,s0
        jal     _exit

sbrk:
        mv      a5,a0
        lui     a3,%hi(brk)
        lw      a0,%lo(brk)(a3)
        bgez    a5,sbrk.2
        lui     a4,%hi(__heap_start)
        addi    a4,a4,%lo(__heap_start)
        sub     a4,a0,a4
        neg     a2,a5
        bge     a4,a2,sbrk.3
sbrk.1:
        li      a0,-1
        ret
sbrk.2:
        lui     a4,%hi(__heap_end)
        addi    a4,a4,%lo(__heap_end)
        sub     a4,a4,a0
        blt     a4,a5,sbrk.1
sbrk.3:
        add     a5,a0,a5
        sw      a5,%lo(brk)(a3)
        ret

printf:
        addi    sp,sp,-64
        sw      a5,52(sp)
        lui     a5,%hi(stdout)
        sw      a1,36(sp)
        mv      a1,a0
        lw      a0,%lo(stdout)(a5)
        sw      a2,40(sp)
        addi    a2,sp,36
        sw      ra,28(sp)
        sw      a3,44(sp)
        sw      a4,48(sp)
        sw      a6,56(sp)
        sw      a7,60(sp)
        sw      a2,12(sp)
        jal     vfprintf
        lw      ra,28(sp)
        addi    sp,sp,64
        ret

__ultoa_invert:
        andi    a5,a2,512
        mv      a4,a0
        li      a3,39
        mv      a0,a1
        beqz    a5,__ultoa_invert.1
        andi    a2,a2,-513
        li      a3,7
__ultoa_invert.1:
        li      a6,9
__ultoa_invert.2:
        remu    a5,a4,a2
        mv      a1,a4
        andi    a5,a5,255
        divu    a4,a4,a2
        bgeu    a6,a5,__ultoa_invert.3
        add     a5,a5,a3
        andi    a5,a5,255
__ultoa_invert.3:
        addi    a0,a0,1
        addi    a5,a5,48
        sb      a5,-1(a0)
        bgeu    a1,a2,__ultoa_invert.2
        ret

vfprintf:
__i_vfprintf:
        jal     t0,__riscv_save_12
        lbu     a5,4(a0)
        lw      s5,8(a0)
        addi    sp,sp,-32
        andi    a5,a5,2
        beqz    a5,vfprintf.42
        mv      s4,a0
        mv      s1,a2
        li      s2,0
        li      s8,37
vfprintf.1:
        lbu     s9,0(a1)
        beqz    s9,vfprintf.43
        addi    s7,a1,1
        bne     s9,s8,vfprintf.2
        lbu     s9,1(a1)
        addi    s7,a1,2
        bne     s9,s8,vfprintf.5
vfprintf.2:
        addi    s2,s2,1
vfprintf.3:
        mv      a1,s4
        mv      a0,s9
        jalr    s5
        bltz    a0,vfprintf.42
vfprintf.4:
        mv      a1,s7
        j       vfprintf.1
vfprintf.5:
        lui     a4,%hi(rodata.a8)
        li      s11,0
        li      s3,0
        li      s0,0
        li      a2,31
        li      a3,108
        li      a1,116
        li      a0,122
        li      a6,104
        li      a7,106
        li      t1,76
        li      t3,42
        li      t4,46
        li      t5,127
        li      t6,16
        li      t0,9
        addi    a4,a4,%lo(rodata.a8)
vfprintf.6:
        bltu    a2,s0,vfprintf.15
        addi    a5,s9,-32
        andi    a5,a5,255
        bltu    t6,a5,vfprintf.7
        slli    a5,a5,2
        add     a5,a5,a4
        lw      a5,0(a5)
        jr      a5
vfprintf.7:
        addi    a5,s9,-48
        andi    a5,a5,255
        bltu    t0,a5,vfprintf.16
vfprintf.8:
        li      t2,10
        mul     t2,s3,t2
        ori     s0,s0,32
        add     s3,t2,a5
        j       vfprintf.10
vfprintf.9:
        ori     s0,s0,1
vfprintf.10:
        lbu     s9,0(s7)
        addi    s7,s7,1
        bnez    s9,vfprintf.6
        j       vfprintf.20
vfprintf.11:
        ori     s0,s0,2
vfprintf.12:
        ori     s0,s0,4
        j       vfprintf.10
vfprintf.13:
        ori     s0,s0,8
        j       vfprintf.10
vfprintf.14:
        ori     s0,s0,16
        j       vfprintf.10
vfprintf.15:
        bltu    t5,s0,vfprintf.19
        addi    t2,s9,-48
        andi    t2,t2,255
        li      a5,9
        bltu    a5,t2,vfprintf.16
        andi    s6,s0,64
        mv      a5,t2
        beqz    s6,vfprintf.8
        li      a5,10
        mul     a5,s11,a5
        add     s11,a5,t2
        j       vfprintf.10
vfprintf.16:
        bne     s9,t3,vfprintf.18
        lw      a5,0(s1)
        addi    t2,s1,4
        andi    s1,s0,64
        bnez    s1,vfprintf.32
        bltz    a5,vfprintf.17
        ori     s0,s0,32
        mv      s1,t2
        mv      s3,a5
        j       vfprintf.10
vfprintf.17:
        neg     s3,a5
        ori     s0,s0,40
        mv      s1,t2
        j       vfprintf.10
vfprintf.18:
        bne     s9,t4,vfprintf.19
        andi    a5,s0,64
        bnez    a5,vfprintf.43
        ori     s0,s0,64
        j       vfprintf.10
vfprintf.19:
        beq     s9,a3,vfprintf.27
        bltu    a3,s9,vfprintf.26
        beq     s9,a6,vfprintf.29
        beq     s9,a7,vfprintf.31
        beq     s9,t1,vfprintf.31
vfprintf.20:
        bgez    s11,vfprintf.21
        andi    s0,s0,-65
        slli    s0,s0,16
        srli    s0,s0,16
        li      s11,0
vfprintf.21:
        ori     a4,s9,32
        addi    a5,a4,-101
        andi    a5,a5,255
        li      a3,2
        bgeu    a3,a5,vfprintf.22
        li      a5,97
        bne     a4,a5,vfprintf.33
vfprintf.22:
        addi    s1,s1,7
        andi    s1,s1,-8
        lui     s6,%hi(text.float)
        addi    s1,s1,8
        li      s9,7
        addi    s6,s6,%lo(text.float)
vfprintf.23:
        andi    s0,s0,8
        beqz    s0,vfprintf.40
vfprintf.24:
        li      s0,0
vfprintf.25:
        bne     s9,s0,vfprintf.41
        add     s0,s2,s9
        sub     s3,s3,s9
        j       vfprintf.79
vfprintf.26:
        beq     s9,a1,vfprintf.10
        beq     s9,a0,vfprintf.10
        j       vfprintf.20
vfprintf.27:
        andi    a5,s0,128
        beqz    a5,vfprintf.28
        ori     s0,s0,512
vfprintf.28:
        ori     s0,s0,128
        j       vfprintf.10
vfprintf.29:
        andi    a5,s0,256
        beqz    a5,vfprintf.30
        ori     s0,s0,512
vfprintf.30:
        ori     s0,s0,256
        j       vfprintf.10
vfprintf.31:
        ori     s0,s0,640
        j       vfprintf.10
vfprintf.32:
        mv      s1,t2
        mv      s11,a5
        j       vfprintf.10
vfprintf.33:
        addi    a5,s9,-99
        andi    a5,a5,255
        li      a3,18
        bltu    a3,a5,vfprintf.59
        lui     a3,%hi(rodata.ec)
        slli    a5,a5,2
        addi    a3,a3,%lo(rodata.ec)
        add     a5,a5,a3
        lw      a5,0(a5)
        jr      a5
vfprintf.34:
        lw      a5,0(s1)
        li      s9,1
        addi    s1,s1,4
        sb      a5,20(sp)
        addi    s6,sp,20
        j       vfprintf.23
vfprintf.35:
        lw      s6,0(s1)
        addi    s10,s1,4
        bnez    s6,vfprintf.36
        lui     s6,%hi(text.null)
        addi    s6,s6,%lo(text.null)
vfprintf.36:
        andi    a5,s0,64
        li      a1,-1
        beqz    a5,vfprintf.37
        mv      a1,s11
vfprintf.37:
        mv      a0,s6
        jal     strnlen
        mv      s9,a0
        mv      s1,s10
        j       vfprintf.23
vfprintf.38:
        mv      a1,s4
        li      a0,32
        jalr    s5
        bltz    a0,vfprintf.42
        addi    s0,s0,-1
vfprintf.39:
        bltu    s9,s0,vfprintf.38
        add     s2,s3,s2
        sub     s2,s2,s0
        mv      s3,s0
        j       vfprintf.24
vfprintf.40:
        mv      s0,s3
        j       vfprintf.39
vfprintf.41:
        add     a5,s6,s0
        lbu     a0,0(a5)
        mv      a1,s4
        addi    s0,s0,1
        jalr    s5
        bgez    a0,vfprintf.25
vfprintf.42:
        li      s2,-1
vfprintf.43:
        mv      a0,s2
        addi    sp,sp,32
        j       __riscv_restore_12
vfprintf.44:
        andi    a5,s0,128
        beqz    a5,vfprintf.49
        andi    a5,s0,512
        addi    s6,s1,4
        beqz    a5,vfprintf.45
        addi    s1,s1,7
        andi    s1,s1,-8
        addi    s6,s1,8
vfprintf.45:
        lw      a0,0(s1)
vfprintf.46:
        andi    s1,s0,-17
        slli    s1,s1,16
        srli    s1,s1,16
        bgez    a0,vfprintf.51
        neg     a0,a0
        ori     s1,s1,1024
vfprintf.47:
        addi    s0,sp,20
        li      a2,10
vfprintf.48:
        mv      a1,s0
        jal     __ultoa_invert
        andi    a5,s1,64
        sub     s0,a0,s0
        beqz    a5,vfprintf.57
        andi    a4,s1,-2
        slli    a4,a4,16
        srli    a4,a4,16
        bge     s0,s11,vfprintf.67
        beqz    s9,vfprintf.66
        andi    a5,s1,16
        bnez    a5,vfprintf.68
        mv      s10,s11
        mv      s1,a4
        j       vfprintf.52
vfprintf.49:
        andi    a5,s0,256
        lw      a0,0(s1)
        addi    s6,s1,4
        beqz    a5,vfprintf.46
        andi    a5,s0,512
        beqz    a5,vfprintf.50
        slli    a0,a0,24
        srai    a0,a0,24
        j       vfprintf.46
vfprintf.50:
        slli    a0,a0,16
        srai    a0,a0,16
        j       vfprintf.46
vfprintf.51:
        bnez    a0,vfprintf.47
        andi    a5,s0,64
        beqz    a5,vfprintf.47
        bnez    s11,vfprintf.47
        andi    s1,s0,-18
        slli    s1,s1,16
        srli    s1,s1,16
        li      s0,0
        li      s10,0
vfprintf.52:
        andi    a5,s1,1030
        beqz    a5,vfprintf.70
        addi    s10,s10,1
        li      a5,0
        j       vfprintf.70
vfprintf.53:
        andi    s0,s0,-17
        slli    s0,s0,16
        srli    s0,s0,16
        li      a2,10
vfprintf.54:
        andi    a5,s0,128
        beqz    a5,vfprintf.62
        andi    a5,s0,512
        addi    s6,s1,4
        beqz    a5,vfprintf.55
        addi    s1,s1,7
        andi    s1,s1,-8
        addi    s6,s1,8
vfprintf.55:
        lw      a0,0(s1)
vfprintf.56:
        bnez    a0,vfprintf.64
        andi    s1,s0,-23
        slli    s1,s1,16
        andi    a5,s0,64
        srli    s1,s1,16
        beqz    a5,vfprintf.65
        bnez    s11,vfprintf.65
        andi    s1,s0,-24
        slli    s1,s1,16
        srli    s1,s1,16
        li      s0,0
vfprintf.57:
        andi    a5,s1,16
        beqz    a5,vfprintf.72
        addi    s10,s0,1
        beqz    s9,vfprintf.70
        mv      a3,s0
        j       vfprintf.69
vfprintf.58:
        ori     s0,s0,16
        li      a2,16
        li      s9,120
        j       vfprintf.54
vfprintf.59:
        li      a5,120
        bne     a4,a5,vfprintf.60
        li      a5,88
        li      a2,16
        bne     s9,a5,vfprintf.54
        li      a2,528
        j       vfprintf.54
vfprintf.60:
        mv      a1,s4
        li      a0,37
        jalr    s5
        bltz    a0,vfprintf.42
        addi    s2,s2,2
        j       vfprintf.3
vfprintf.61:
        li      a2,8
        li      s9,0
        j       vfprintf.54
vfprintf.62:
        andi    a5,s0,256
        lw      a0,0(s1)
        addi    s6,s1,4
        beqz    a5,vfprintf.56
        andi    a5,s0,512
        beqz    a5,vfprintf.63
        andi    a0,a0,255
        j       vfprintf.56
vfprintf.63:
        slli    a0,a0,16
        srli    a0,a0,16
        j       vfprintf.56
vfprintf.64:
        andi    s0,s0,-7
        slli    s1,s0,16
        srli    s1,s1,16
vfprintf.65:
        addi    s0,sp,20
        j       vfprintf.48
vfprintf.66:
        andi    s1,s1,-18
        slli    s1,s1,16
        srli    s1,s1,16
        mv      s10,s11
        j       vfprintf.52
vfprintf.67:
        mv      s1,a4
        j       vfprintf.57
vfprintf.68:
        mv      a3,s0
        mv      s1,a4
        mv      s0,s11
vfprintf.69:
        addi    s10,s0,2
        mv      s0,a3
vfprintf.70:
        andi    a4,s1,8
        bnez    a4,vfprintf.75
        andi    a4,s1,1
        beqz    a4,vfprintf.71
        mv      s11,s0
        bge     s10,s3,vfprintf.71
        sub     s10,s3,s10
        add     s11,s10,s0
        mv      s10,s3
vfprintf.71:
        mv      a4,s10
        j       vfprintf.74
vfprintf.72:
        mv      s10,s0
        j       vfprintf.52
vfprintf.73:
        mv      a1,s4
        li      a0,32
        sw      a5,12(sp)
        sw      a4,8(sp)
        jalr    s5
        bltz    a0,vfprintf.42
        lw      a4,8(sp)
        lw      a5,12(sp)
        addi    a4,a4,1
vfprintf.74:
        blt     a4,s3,vfprintf.73
        sub     s10,s2,s10
        add     s2,s10,a4
        mv      s10,a4
vfprintf.75:
        beqz    a5,vfprintf.82
        mv      a1,s4
        li      a0,48
        jalr    s5
        bltz    a0,vfprintf.42
        bnez    s9,vfprintf.80
        addi    s2,s2,1
vfprintf.76:
        add     s11,s2,s11
vfprintf.77:
        sub     a5,s11,s2
        blt     s0,a5,vfprintf.85
        mv      s1,s0
vfprintf.78:
        bnez    s1,vfprintf.86
        add     s0,s0,s2
        sub     s3,s3,s10
        mv      s1,s6
vfprintf.79:
        mv      s2,s0
        add     s3,s0,s3
        j       vfprintf.88
vfprintf.80:
        addi    s2,s2,2
        mv      a1,s4
        mv      a0,s9
vfprintf.81:
        jalr    s5
        bgez    a0,vfprintf.76
        j       vfprintf.42
vfprintf.82:
        andi    a5,s1,1030
        beqz    a5,vfprintf.76
        andi    a5,s1,2
        li      a0,32
        beqz    a5,vfprintf.83
        li      a0,43
vfprintf.83:
        andi    s1,s1,1024
        beqz    s1,vfprintf.84
        li      a0,45
vfprintf.84:
        addi    s2,s2,1
        mv      a1,s4
        j       vfprintf.81
vfprintf.85:
        mv      a1,s4
        li      a0,48
        addi    s2,s2,1
        jalr    s5
        bgez    a0,vfprintf.77
        j       vfprintf.42
vfprintf.86:
        addi    s1,s1,-1
        addi    a5,sp,20
        add     a5,a5,s1
        lbu     a0,0(a5)
        mv      a1,s4
        jalr    s5
        bgez    a0,vfprintf.78
        j       vfprintf.42
vfprintf.87:
        mv      a1,s4
        li      a0,32
        addi    s2,s2,1
        jalr    s5
        bltz    a0,vfprintf.42
vfprintf.88:
        sub     a5,s3,s2
        bgtz    a5,vfprintf.87
        j       vfprintf.4

memset:
        mv      t1,a0
        beqz    a2,memset.2
memset.1:
        sb      a1,0(t1)
        addi    a2,a2,-1
        addi    t1,t1,1
        bnez    a2,memset.1
memset.2:
        ret

__libc_fini_array:
        jal     t0,__riscv_save_1
        li      a4,0
        li      s0,0
        sub     s0,s0,a4
        srai    s0,s0,2
        li      s1,0
__libc_fini_array.1:
        bnez    s0,__libc_fini_array.3
        li      a5,0
        beqz    a5,__libc_fini_array.2
        auipc   ra,0x0                  # %pcrel_hi(0x0)
        jalr    zero
__libc_fini_array.2:
        j       __riscv_restore_3
__libc_fini_array.3:
        addi    s0,s0,-1
        slli    a5,s0,2
        add     a5,s1,a5
        lw      a5,0(a5)
        jalr    a5
        j       __libc_fini_array.1

raise:
        li      a5,31
        bgeu    a5,a0,raise.1
        li      a4,22
        sw      a4,0(tp)
        li      a0,-1
        ret
raise.1:
        jal     t0,__riscv_save_1
        slli    a4,a0,2
        addi    a5,tp,4
        add     a5,a5,a4
        lw      a4,0(a5)
        addi    sp,sp,-16
        bnez    a4,raise.3
        sw      a0,12(sp)
        jal     getpid
        lw      a1,12(sp)
        jal     kill
raise.2:
        addi    sp,sp,16
        j       __riscv_restore_3
raise.3:
        li      a3,1
        beq     a4,a3,raise.5
        li      a3,-1
        bne     a4,a3,raise.4
        li      a4,22
        sw      a4,0(tp)
        li      a0,1
        j       raise.2
raise.4:
        sw      zero,0(a5)
        jalr    a4
raise.5:
        li      a0,0
        j       raise.2

strnlen:
        add     a1,a0,a1
        mv      a5,a0
strnlen.1:
        beq     a5,a1,strnlen.2
        lbu     a4,0(a5)
        bnez    a4,strnlen.3
strnlen.2:
        sub     a0,a5,a0
        ret
strnlen.3:
        addi    a5,a5,1
        j       strnlen.1

__riscv_save_12:
        addi    sp,sp,-64
        li      t1,0
        sw      s11,12(sp)
        j       __riscv_save_8.1

__riscv_save_8:
__riscv_save_11:
__riscv_save_9:
__riscv_save_10:
        addi    sp,sp,-64
        li      t1,-16
__riscv_save_8.1:
        sw      s10,16(sp)
        sw      s9,20(sp)
        sw      s8,24(sp)
        sw      s7,28(sp)
        j       __riscv_save_7.1

__riscv_save_7:
__riscv_save_4:
__riscv_save_6:
__riscv_save_5:
        addi    sp,sp,-64
        li      t1,-32
__riscv_save_7.1:
        sw      s6,32(sp)
        sw      s5,36(sp)
        sw      s4,40(sp)
        sw      s3,44(sp)
        sw      s2,48(sp)
        sw      s1,52(sp)
        sw      s0,56(sp)
        sw      ra,60(sp)
        sub     sp,sp,t1
        jr      t0

__riscv_save_1:
__riscv_save_3:
__riscv_save_2:
__riscv_save_0:
        addi    sp,sp,-16
        sw      s2,0(sp)
        sw      s1,4(sp)
        sw      s0,8(sp)
        sw      ra,12(sp)
        jr      t0

__riscv_restore_12:
        lw      s11,12(sp)
        addi    sp,sp,16

__riscv_restore_10:
__riscv_restore_11:
__riscv_restore_8:
__riscv_restore_9:
        lw      s10,0(sp)
        lw      s9,4(sp)
        lw      s8,8(sp)
        lw      s7,12(sp)
        addi    sp,sp,16

__riscv_restore_5:
__riscv_restore_6:
__riscv_restore_4:
__riscv_restore_7:
        lw      s6,0(sp)
        lw      s5,4(sp)
        lw      s4,8(sp)
        lw      s3,12(sp)
        addi    sp,sp,16

__riscv_restore_3:
__riscv_restore_2:
__riscv_restore_0:
__riscv_restore_1:
        lw      s2,0(sp)
        lw      s1,4(sp)
        lw      s0,8(sp)
        lw      ra,12(sp)
        addi    sp,sp,16
        ret

        .rodata
text.0123456789abcdef:
        .asciz  "0123456789abcdef"
        .space  3
text:
        .asciz  "\n"
        .space  2
text.trap_cause:
        .asciz  "\ntrap cause="
        .space  3
text.epc:
        .asciz  " epc="
        .space  2
text.tval:
        .asciz  " tval="
        .space  1
stdout:
        .word   serial
text.square:
        .asciz  "square"
        .space  1
text.strip:
        .asciz  "strip"
        .space  2
text.s_d:
        .asciz  "%s %d\n"
        .space  1
text.d_d:
        .asciz  "%d %d\n"
        .space  1
vtable_for_geometry.Shape:
        .space  16
        .word   __cxa_pure_virtual
vtable_for_geometry.Square:
        .word   0,0,geometry.Square._Square__,geometry.Square._Square__.2
        .word   geometry.Square.area___const
vtable_for_geometry.Strip:
        .word   0,0,geometry.Strip._Strip__,geometry.Strip._Strip__.2
        .word   geometry.Strip.area___const
text.null:
        .asciz  "(null)"
        .space  1
text.float:
        .asciz  "*float*"
rodata.a8:
        .word   vfprintf.12,vfprintf.7,vfprintf.7,vfprintf.14
        .word   vfprintf.7,vfprintf.7,vfprintf.7,vfprintf.10
        .word   vfprintf.7,vfprintf.7,vfprintf.7,vfprintf.11
        .word   vfprintf.7,vfprintf.13,vfprintf.7,vfprintf.7
        .word   vfprintf.9
rodata.ec:
        .word   vfprintf.34,vfprintf.44,vfprintf.59,vfprintf.59
        .word   vfprintf.59,vfprintf.59,vfprintf.44,vfprintf.59
        .word   vfprintf.59,vfprintf.59,vfprintf.59,vfprintf.59
        .word   vfprintf.61,vfprintf.58,vfprintf.59,vfprintf.59
        .word   vfprintf.35,vfprintf.59,vfprintf.53

        .section .init_array
__preinit_array_end:
__init_array_start:
__preinit_array_start:
        .word   _GLOBAL__sub_I_main
__init_array_end:
        .space  4

        .data
name.0:
        .asciz  "program"
arguments.1:
        .word   name.0,0
serial:
        .word   0,3,put,get,0
brk:
        .word   __heap_start
__tls_base:
        .space  136

        .bss
counter:
__bss_start:
        .space  4
__malloc_sbrk_top:
        .space  4
__malloc_sbrk_start:
        .space  4
__malloc_free_list:
        .space  4
__lock___libc_recursive_mutex:
        .space  1
        .space  7
__bss_end:
__heap_start:
