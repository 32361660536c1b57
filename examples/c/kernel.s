# Made by elf2s of kernel.elf: 4564 bytes, entry _start.
        .equ    __stack_top,0x80100000

        .text

_start:
        la      t0,first_trap
        csrw    mtvec,t0
        la      sp,__stack_top
        la      tp,__tls_base
        call    board_init
        mv      a1,a0
        li      a0,1
        call    main
        tail    exit

first_trap:
        la      sp,__stack_top
        csrr    a0,mcause
        csrr    a1,mepc
        csrr    a2,mtval
        tail    board_trap

start:
start.83:               # kernel.c:83  {
start.84:               # kernel.c:84      uint32_t *sp = (uint32_t *)(stacks[n] + STACK) - FRAME;
        slli    a5,a0,11                # n
        lui     a4,%hi(stacks)
        addi    a4,a4,%lo(stacks)
        add     a5,a5,a4
        addi    a3,a5,1920              # sp
start.85:               # kernel.c:85      sp[MEPC] = (uint32_t)body;
        sw      a1,1920(a5)             # MEM[(uint32_t *)_1 + 1920B]
start.86:               # kernel.c:86      sp[MSTATUS] = MSTATUS_MPP | MSTATUS_MPIE;
        li      a4,6272
        sw      a4,1928(a5)             # MEM[(uint32_t *)_1 + 1928B]
start.87:               # kernel.c:87      sp[RA] = (uint32_t)end;
        lui     a4,%hi(end)
        addi    a4,a4,%lo(end)          # end
        sw      a4,1924(a5)             # end, MEM[(uint32_t *)_1 + 1924B]
start.88:               # kernel.c:88      sp[A0] = (uint32_t)argument;
        sw      a2,1960(a5)             # MEM[(uint32_t *)_1 + 1960B]
start.89:               # kernel.c:89      tasks[n] = (task){ .sp = sp, .used = 1 };
        lui     a5,%hi(tasks)
        slli    a0,a0,4                 # n
        addi    a5,a5,%lo(tasks)
        add     a5,a5,a0
        sw      zero,0(a5)              # tasks[n]
        sw      zero,4(a5)              # tasks[n]
        sw      zero,8(a5)              # tasks[n]
        sw      zero,12(a5)             # tasks[n]
        sw      a3,0(a5)                # sp, tasks[n].sp
        li      a4,1
        sw      a4,12(a5)               # tasks[n].used
        ret

put:
put.17:                 # board.c:17  {
put.18:                 # board.c:18      (void)file;
put.19:                 # board.c:19      SERIAL_TRANSMIT = (uint8_t)c;
        li      a4,0x10000000
        sb      a0,0(a4)
put.20:                 # board.c:20      return (unsigned char)c;
        ret

get:
get.25:                 # board.c:25  {
        li      a5,0x10000000
get.26:                 # board.c:26      uint32_t byte;
get.27:                 # board.c:27      (void)file;
get.28:                 # board.c:28      do byte = SERIAL_RECEIVE; while (byte >> 31);
        lw      a0,4(a5)
        bltz    a0,get.26
get.29:                 # board.c:29      return byte == END_OF_INPUT ? _FDEV_EOF : (int)byte;
        li      a5,4
        bne     a0,a5,get.30
        li      a0,-2
get.30:                 # board.c:30  }
        ret

put_word:
put_word.62:            # board.c:62  {
put_word.63:            # board.c:63      put_text(name);
put_word.58:            # board.c:58      while (*text) SERIAL_TRANSMIT = (uint8_t)*text++;
        li      a4,0x10000000
put_word.58.2:          # board.c:58      while (*text) SERIAL_TRANSMIT = (uint8_t)*text++;
        lbu     a5,0(a0)
        bnez    a5,put_word.58.3
        lui     a3,%hi(text.0123456789abcdef)
        li      a4,28
        addi    a3,a3,%lo(text.0123456789abcdef)
        li      a0,0x10000000
        li      a2,-4
put_word.64:            # board.c:64      for (int shift = 28; shift >= 0; shift -= 4) SERIAL_TRANSMIT = (uint8_t)"0123456789abcdef"[word >> shift & 15];
        srl     a5,a1,a4
        andi    a5,a5,15
        add     a5,a3,a5
        lbu     a5,0(a5)
        addi    a4,a4,-4
        sb      a5,0(a0)
        bne     a4,a2,put_word.64
        ret
put_word.58.3:          # board.c:58      while (*text) SERIAL_TRANSMIT = (uint8_t)*text++;
        addi    a0,a0,1
        sb      a5,0(a4)
        j       put_word.58.2

board_init:
board_init.44:          # board.c:44  {
board_init.45:          # board.c:45      static char name[] = "program", *arguments[] = { name, NULL };
board_init.46:          # board.c:46      for (constructor **it = __preinit_array_start; it != __preinit_array_end; it++) (*it)();
        addi    sp,sp,-16
        sw      s0,8(sp)
        sw      s1,4(sp)
        lui     s0,%hi(__preinit_array_start)
        lui     s1,%hi(__preinit_array_end)
        sw      ra,12(sp)
        addi    s0,s0,%lo(__preinit_array_start)
        addi    s1,s1,%lo(__preinit_array_end)
board_init.46.2:        # board.c:46      for (constructor **it = __preinit_array_start; it != __preinit_array_end; it++) (*it)();
        bne     s0,s1,board_init.46.3
        lui     s0,%hi(__init_array_start)
        lui     s1,%hi(__init_array_end)
        addi    s0,s0,%lo(__init_array_start)
        addi    s1,s1,%lo(__init_array_end)
board_init.47:          # board.c:47      for (constructor **it = __init_array_start; it != __init_array_end; it++) (*it)();
        bne     s0,s1,board_init.47.2
board_init.48:          # board.c:48      return arguments;
        lw      ra,12(sp)
        lw      s0,8(sp)
        lui     a0,%hi(arguments.1)
        lw      s1,4(sp)
        addi    a0,a0,%lo(arguments.1)
        addi    sp,sp,16
        ret
board_init.46.3:        # board.c:46      for (constructor **it = __preinit_array_start; it != __preinit_array_end; it++) (*it)();
        lw      a5,0(s0)
        addi    s0,s0,4
        jalr    a5
        j       board_init.46.2
board_init.47.2:        # board.c:47      for (constructor **it = __init_array_start; it != __init_array_end; it++) (*it)();
        lw      a5,0(s0)
        addi    s0,s0,4
        jalr    a5
        j       board_init.47

_exit:
_exit.52:               # board.c:52  {
        beqz    a0,_exit.53.3
        li      a5,0x3000
        slli    a0,a0,16
        addi    a5,a5,819
        or      a0,a0,a5
_exit.53.2:             # board.c:53      for (;;) HALT = code ? (uint32_t)code << 16 | 0x3333 : 0x5555;
        li      a5,0x100000
_exit.53:               # board.c:53      for (;;) HALT = code ? (uint32_t)code << 16 | 0x3333 : 0x5555;
        sw      a0,0(a5)
        j       _exit.53
_exit.53.3:
        li      a0,0x5555
        j       _exit.53.2

board_trap:
board_trap.68:          # board.c:68  {
board_trap.69:          # board.c:69      put_word("\ntrap cause=", cause);
        addi    sp,sp,-16
        sw      s0,8(sp)
        sw      s2,0(sp)
        mv      s0,a0
        mv      s2,a1
        mv      a1,a0
        lui     a0,%hi(text.trap_cause)
        addi    a0,a0,%lo(text.trap_cause)
        sw      ra,12(sp)
        sw      s1,4(sp)
        mv      s1,a2
        jal     put_word
board_trap.70:          # board.c:70      put_word(" epc=", epc);
        lui     a0,%hi(text.epc)
        mv      a1,s2
        addi    a0,a0,%lo(text.epc)
        jal     put_word
board_trap.71:          # board.c:71      put_word(" tval=", tval);
        lui     a0,%hi(text.tval)
        mv      a1,s1
        addi    a0,a0,%lo(text.tval)
        jal     put_word
board_trap.72:          # board.c:72      put_text("\n");
board_trap.58:          # board.c:58      while (*text) SERIAL_TRANSMIT = (uint8_t)*text++;
        lui     a5,%hi(text)
        addi    a5,a5,%lo(text)
        li      a3,0x10000000
board_trap.58.2:        # board.c:58      while (*text) SERIAL_TRANSMIT = (uint8_t)*text++;
        lbu     a4,0(a5)
        bnez    a4,board_trap.58.3
board_trap.73:          # board.c:73      _exit(128 + (int)(cause & 31));
        andi    a0,s0,31
        addi    a0,a0,128
        jal     _exit
board_trap.58.3:        # board.c:58      while (*text) SERIAL_TRANSMIT = (uint8_t)*text++;
        addi    a5,a5,1
        sb      a4,0(a3)
        j       board_trap.58.2

is_ready:
is_ready.22:            # kernel.c:22  {
is_ready.23:            # kernel.c:23      return t->used && (int32_t)(now - t->wake) >= 0 && (!t->waits || *t->waits > 0);
        lw      a5,12(a0)               # t->used
        beqz    a5,is_ready.23.3
        lw      a4,4(a0)                # t->wake
        lui     a5,%hi(now)
        lw      a5,%lo(now)(a5)         # now
        sub     a5,a5,a4                # now
        bltz    a5,is_ready.23.4
        lw      a5,8(a0)                # t->waits
        beqz    a5,is_ready.23.5
        lw      a5,0(a5)
        blez    a5,is_ready.23.2
        li      a0,1                    # <retval>
        ret
is_ready.23.2:
        li      a0,0                    # <retval>
        ret
is_ready.23.3:
        li      a0,0                    # <retval>
        ret
is_ready.23.4:
        li      a0,0                    # <retval>
        ret
is_ready.23.5:
        li      a0,1                    # <retval>
        ret

entry:
entry.50:               # kernel.c:50  {
entry.51:               # kernel.c:51      __asm__ volatile (
        addi    sp,sp,-128
        sw      ra,4(sp)
        sw      gp,12(sp)
        sw      tp,16(sp)
        sw      t0,20(sp)
        sw      t1,24(sp)
        sw      t2,28(sp)
        sw      s0,32(sp)
        sw      s1,36(sp)
        sw      a0,40(sp)
        sw      a1,44(sp)
        sw      a2,48(sp)
        sw      a3,52(sp)
        sw      a4,56(sp)
        sw      a5,60(sp)
        sw      a6,64(sp)
        sw      a7,68(sp)
        sw      s2,72(sp)
        sw      s3,76(sp)
        sw      s4,80(sp)
        sw      s5,84(sp)
        sw      s6,88(sp)
        sw      s7,92(sp)
        sw      s8,96(sp)
        sw      s9,100(sp)
        sw      s10,104(sp)
        sw      s11,108(sp)
        sw      t3,112(sp)
        sw      t4,116(sp)
        sw      t5,120(sp)
        sw      t6,124(sp)
        csrr    t0,mepc
        sw      t0,0(sp)
        csrr    t0,mstatus
        sw      t0,8(sp)
        mv      a0,sp
        csrr    a1,mcause
        jal     schedule
        mv      sp,a0
        lw      t0,0(sp)
        csrw    mepc,t0
        lw      t0,8(sp)
        csrw    mstatus,t0
        lw      ra,4(sp)
        lw      gp,12(sp)
        lw      tp,16(sp)
        lw      t0,20(sp)
        lw      t1,24(sp)
        lw      t2,28(sp)
        lw      s0,32(sp)
        lw      s1,36(sp)
        lw      a0,40(sp)
        lw      a1,44(sp)
        lw      a2,48(sp)
        lw      a3,52(sp)
        lw      a4,56(sp)
        lw      a5,60(sp)
        lw      a6,64(sp)
        lw      a7,68(sp)
        lw      s2,72(sp)
        lw      s3,76(sp)
        lw      s4,80(sp)
        lw      s5,84(sp)
        lw      s6,88(sp)
        lw      s7,92(sp)
        lw      s8,96(sp)
        lw      s9,100(sp)
        lw      s10,104(sp)
        lw      s11,108(sp)
        lw      t3,112(sp)
        lw      t4,116(sp)
        lw      t5,120(sp)
        lw      t6,124(sp)
        addi    sp,sp,128
        mret

give_way:
give_way.70:            # kernel.c:70  static void give_way(void) { __asm__ volatile ("ecall" : : : "memory"); }
        ecall
        ret

sleep:
sleep.71:               # kernel.c:71  static void sleep(uint32_t slices) { tasks[current].wake = now + slices; give_way(); }
        addi    sp,sp,-16
        sw      ra,12(sp)
        lui     a5,%hi(current)
        lw      a4,%lo(current)(a5)     # current
        lui     a5,%hi(now)
        lw      a5,%lo(now)(a5)         # now
        add     a0,a0,a5                # now
        lui     a5,%hi(tasks)
        slli    a4,a4,4                 # current
        addi    a5,a5,%lo(tasks)
        add     a5,a5,a4
        sw      a0,4(a5)                # tasks[current].wake
        jal     give_way
        lw      ra,12(sp)
        addi    sp,sp,16
        ret

wait:
wait.72:                # kernel.c:72  static void wait(volatile int *semaphore) { tasks[current].waits = semaphore; give_way(); }
        addi    sp,sp,-16
        sw      ra,12(sp)
        lui     a5,%hi(current)
        lw      a4,%lo(current)(a5)     # current
        lui     a5,%hi(tasks)
        slli    a4,a4,4                 # current
        addi    a5,a5,%lo(tasks)
        add     a5,a5,a4
        sw      a0,8(a5)                # tasks[current].waits
        jal     give_way
        lw      ra,12(sp)
        addi    sp,sp,16
        ret

end:
end.73:                 # kernel.c:73  static void end(void) { tasks[current].used = 0; give_way(); }
        addi    sp,sp,-16
        sw      ra,12(sp)
        lui     a5,%hi(current)
        lw      a4,%lo(current)(a5)     # current
        lui     a5,%hi(tasks)
        slli    a4,a4,4                 # current
        addi    a5,a5,%lo(tasks)
        add     a5,a5,a4
        sw      zero,12(a5)             # tasks[current].used
        jal     give_way
        lw      ra,12(sp)
        addi    sp,sp,16
        ret

post:
post.76:                # kernel.c:76  {
post.77:                # kernel.c:77      csr_clear(mstatus, MSTATUS_MIE);
        csrci   mstatus,8
post.78:                # kernel.c:78      ++*semaphore;
        lw      a5,0(a0)                # *semaphore
        addi    a5,a5,1
        sw      a5,0(a0)                # *semaphore
post.79:                # kernel.c:79      csr_set(mstatus, MSTATUS_MIE);
        csrsi   mstatus,8
        ret

producer:
producer.100:           # kernel.c:100  {
        addi    sp,sp,-16
        sw      ra,12(sp)
        sw      s0,8(sp)
        sw      s1,4(sp)
        mv      s1,a0                   # n
producer.101:           # kernel.c:101      for (int i = 0; i < n; i++) {
        li      s0,0                    # i
        j       producer.101.2
producer.102:           # kernel.c:102          box[put_at++ % 8] = i * i;
        lui     a4,%hi(put_at)
        lw      a5,%lo(put_at)(a4)      # put_at
        addi    a3,a5,1                 # put_at
        sw      a3,%lo(put_at)(a4)      # put_at
        andi    a5,a5,7                 # put_at
        mul     a3,s0,s0                # i
        lui     a4,%hi(box)
        slli    a5,a5,2
        addi    a4,a4,%lo(box)
        add     a5,a4,a5
        sw      a3,0(a5)                # box[_3]
producer.103:           # kernel.c:103          post(&full);
        lui     a0,%hi(full)
        addi    a0,a0,%lo(full)
        jal     post
producer.104:           # kernel.c:104          sleep(2);
        li      a0,2
        jal     sleep
                        # kernel.c:101      for (int i = 0; i < n; i++) {
        addi    s0,s0,1                 # i
producer.101.2:         # kernel.c:101      for (int i = 0; i < n; i++) {
        blt     s0,s1,producer.102      # i, n
        lw      ra,12(sp)
        lw      s0,8(sp)
        lw      s1,4(sp)
        addi    sp,sp,16
        ret

spinner:
spinner.118:            # kernel.c:118  {
spinner.119:            # kernel.c:119      (void)n;
spinner.120:            # kernel.c:120      while (!done) spun++;
        j       spinner.120.3
spinner.120.2:          # kernel.c:120      while (!done) spun++;
        lui     a4,%hi(spun)
        lw      a5,%lo(spun)(a4)        # spun
        addi    a5,a5,1                 # spun
        sw      a5,%lo(spun)(a4)        # spun
spinner.120.3:          # kernel.c:120      while (!done) spun++;
        lui     a5,%hi(done)
        lw      a5,%lo(done)(a5)        # done
        beqz    a5,spinner.120.2        # done
        ret

consumer:
consumer.109:           # kernel.c:109  {
        addi    sp,sp,-16
        sw      ra,12(sp)
        sw      s0,8(sp)
        sw      s1,4(sp)
        mv      s1,a0                   # n
consumer.110:           # kernel.c:110      for (int i = 0; i < n; i++) {
        li      s0,0                    # i
        j       consumer.110.2
consumer.111:           # kernel.c:111          wait(&full);
        lui     a0,%hi(full)
        addi    a0,a0,%lo(full)
        jal     wait
consumer.112:           # kernel.c:112          printf("got %d\n", box[got_at++ % 8]);
        lui     a4,%hi(got_at)
        lw      a5,%lo(got_at)(a4)      # got_at
        addi    a3,a5,1                 # got_at
        sw      a3,%lo(got_at)(a4)      # got_at
        andi    a5,a5,7                 # got_at
        lui     a4,%hi(box)
        slli    a5,a5,2
        addi    a4,a4,%lo(box)
        add     a5,a4,a5
        lw      a1,0(a5)                # box[_3]
        lui     a0,%hi(text.got_d)
        addi    a0,a0,%lo(text.got_d)
        jal     printf
                        # kernel.c:110      for (int i = 0; i < n; i++) {
        addi    s0,s0,1                 # i
consumer.110.2:         # kernel.c:110      for (int i = 0; i < n; i++) {
        blt     s0,s1,consumer.111      # i, n
consumer.114:           # kernel.c:114      done = 1;
        lui     a5,%hi(done)
        li      a4,1
        sw      a4,%lo(done)(a5)        # done
        lw      ra,12(sp)
        lw      s0,8(sp)
        lw      s1,4(sp)
        addi    sp,sp,16
        ret

schedule:
schedule.28:            # kernel.c:28  {
        addi    sp,sp,-16
        sw      ra,12(sp)
        sw      s0,8(sp)
schedule.29:            # kernel.c:29      tasks[current].sp = sp;
        lui     a5,%hi(current)
        lw      a4,%lo(current)(a5)     # current
        lui     a5,%hi(tasks)
        slli    a4,a4,4                 # current
        addi    a5,a5,%lo(tasks)
        add     a5,a5,a4
        sw      a0,0(a5)                # sp, tasks[current].sp
schedule.30:            # kernel.c:30      if (cause == CAUSE_TIMER) {
        li      a5,0x80000007
        beq     a1,a5,schedule.31
schedule.34:            # kernel.c:34          sp[MEPC] += 4;                          /* ECALL: the task gives way */
        lw      a5,0(a0)                # *sp
        addi    a5,a5,4
        sw      a5,0(a0)                # *sp
schedule.28.2:          # kernel.c:28  {
        li      s0,0                    # tried
        j       schedule.37
schedule.31:            # kernel.c:31          now++;
        lui     a4,%hi(now)
        lw      a5,%lo(now)(a4)         # now
        addi    a5,a5,1                 # now
        sw      a5,%lo(now)(a4)         # now
schedule.32:            # kernel.c:32          MTIMECMP = MTIME + SLICE;
        li      a5,0x200c000
        lw      a5,-8(a5)               # [0x200bff8]
        addi    a5,a5,1000
        li      a4,0x2004000
        sw      a5,0(a4)                # [0x2004000]
        j       schedule.28.2
schedule.36:            # kernel.c:36      for (int tried = 0; ; tried++) {
        addi    s0,s0,1                 # tried
schedule.37:            # kernel.c:37          current = (current + 1) % TASKS;
                        # kernel.c:36      for (int tried = 0; ; tried++) {
        lui     a4,%hi(current)
        lw      a0,%lo(current)(a4)     # current
        addi    a0,a0,1                 # current
        srai    a5,a0,31
        srli    a5,a5,30
        add     a0,a0,a5
        andi    a0,a0,3
        sub     a0,a0,a5
        sw      a0,%lo(current)(a4)     # current
schedule.38:            # kernel.c:38          if (is_ready(&tasks[current])) break;
        slli    a0,a0,4
        lui     a5,%hi(tasks)
        addi    a5,a5,%lo(tasks)
        add     a0,a5,a0
        jal     is_ready
        bnez    a0,schedule.41
schedule.39:            # kernel.c:39          if (tried % TASKS == TASKS - 1) now++;  /* all sleep: time goes on */
        srai    a4,s0,31                # tried
        srli    a4,a4,30
        add     a5,s0,a4                # tried
        andi    a5,a5,3
        sub     a5,a5,a4
        li      a4,3
        bne     a5,a4,schedule.36
        lui     a4,%hi(now)
        lw      a5,%lo(now)(a4)         # now
        addi    a5,a5,1                 # now
        sw      a5,%lo(now)(a4)         # now
        j       schedule.36
schedule.41:            # kernel.c:41      if (tasks[current].waits) {
        lui     a5,%hi(current)
        lw      a4,%lo(current)(a5)     # current
        lui     a5,%hi(tasks)
        slli    a3,a4,4                 # current
        addi    a5,a5,%lo(tasks)
        add     a5,a5,a3
        lw      a5,8(a5)                # tasks[current].waits
        beqz    a5,schedule.45
schedule.42:            # kernel.c:42          --*tasks[current].waits;
        lw      a3,0(a5)
        addi    a3,a3,-1
        sw      a3,0(a5)
schedule.43:            # kernel.c:43          tasks[current].waits = NULL;
        lui     a5,%hi(tasks)
        slli    a3,a4,4                 # current
        addi    a5,a5,%lo(tasks)
        add     a5,a5,a3
        sw      zero,8(a5)              # tasks[current].waits
schedule.45:            # kernel.c:45      switches++;
        lui     a3,%hi(switches)
        lw      a5,%lo(switches)(a3)    # switches
        addi    a5,a5,1                 # switches
        sw      a5,%lo(switches)(a3)    # switches
schedule.46:            # kernel.c:46      return tasks[current].sp;
        lui     a5,%hi(tasks)
        slli    a4,a4,4                 # current
        addi    a5,a5,%lo(tasks)
        add     a5,a5,a4
        lw      a0,0(a5)                # tasks[current].sp
        lw      ra,12(sp)
        lw      s0,8(sp)
        addi    sp,sp,16
        ret

main:
main.124:               # kernel.c:124  {
        addi    sp,sp,-16
        sw      ra,12(sp)
main.125:               # kernel.c:125      csr_write(mtvec, entry);
        lui     a5,%hi(entry)
        addi    a5,a5,%lo(entry)
        csrw    mtvec,a5
main.126:               # kernel.c:126      tasks[0] = (task){ .used = 1 };
        lui     a5,%hi(tasks)
        addi    a5,a5,%lo(tasks)
        sw      zero,0(a5)              # tasks[0]
        sw      zero,4(a5)              # tasks[0]
        sw      zero,8(a5)              # tasks[0]
        sw      zero,12(a5)             # tasks[0]
        li      a4,1
        sw      a4,12(a5)               # tasks[0].used
main.127:               # kernel.c:127      start(1, producer, 6);
        li      a2,6
        lui     a1,%hi(producer)
        addi    a1,a1,%lo(producer)
        li      a0,1
        jal     start
main.128:               # kernel.c:128      start(2, consumer, 6);
        li      a2,6
        lui     a1,%hi(consumer)
        addi    a1,a1,%lo(consumer)
        li      a0,2
        jal     start
main.129:               # kernel.c:129      start(3, spinner, 0);
        li      a2,0
        lui     a1,%hi(spinner)
        addi    a1,a1,%lo(spinner)
        li      a0,3
        jal     start
main.130:               # kernel.c:130      MTIMECMPH = 0;
        li      a4,0x2004000
        sw      zero,4(a4)              # [0x2004004]
main.131:               # kernel.c:131      MTIMECMP = MTIME + SLICE;
        li      a5,0x200c000
        lw      a5,-8(a5)               # [0x200bff8]
        addi    a5,a5,1000
        sw      a5,0(a4)                # [0x2004000]
main.132:               # kernel.c:132      csr_set(mie, MI_TIMER);
        li      a5,128
        csrs    mie,a5
main.133:               # kernel.c:133      csr_set(mstatus, MSTATUS_MIE);
        csrsi   mstatus,8
main.134:               # kernel.c:134      while (!done) give_way();
        j       main.134.3
main.134.2:             # kernel.c:134      while (!done) give_way();
        jal     give_way
main.134.3:             # kernel.c:134      while (!done) give_way();
        lui     a5,%hi(done)
        lw      a5,%lo(done)(a5)        # done
        beqz    a5,main.134.2           # done
main.135:               # kernel.c:135      csr_clear(mstatus, MSTATUS_MIE);
        csrci   mstatus,8
main.136:               # kernel.c:136      printf("done, %s, %s\n", spun > 100 ? "the spinner ran" : "no spin", switches > 12 ? "switched" : "no switch");
        lui     a5,%hi(spun)
        lw      a4,%lo(spun)(a5)        # spun
        li      a5,100
        bgeu    a5,a4,main.136.4        # spun
        lui     a1,%hi(text.the_spinner_ran)
        addi    a1,a1,%lo(text.the_spinner_ran) # iftmp
main.136.2:
        lui     a5,%hi(switches)
        lw      a4,%lo(switches)(a5)    # switches
        li      a5,12
        bgeu    a5,a4,main.136.5        # switches
        lui     a2,%hi(text.switched)
        addi    a2,a2,%lo(text.switched) # iftmp
main.136.3:
        lui     a0,%hi(text.done_s_s)
        addi    a0,a0,%lo(text.done_s_s)
        jal     printf
main.137:               # kernel.c:137      return 0;
        li      a0,0
        lw      ra,12(sp)
        addi    sp,sp,16
        ret
main.136.4:             # kernel.c:136      printf("done, %s, %s\n", spun > 100 ? "the spinner ran" : "no spin", switches > 12 ? "switched" : "no switch");
        lui     a1,%hi(text.no_spin)
        addi    a1,a1,%lo(text.no_spin) # iftmp
        j       main.136.2
main.136.5:
        lui     a2,%hi(text.no_switch)
        addi    a2,a2,%lo(text.no_switch) # iftmp
        j       main.136.3

exit:
        jal     t0,__riscv_save_1
        li      a5,0
        mv      s0,a0
        beqz    a5,exit.1
        li      a1,0
        auipc   ra,0x0                  # %pcrel_hi(0x0)
        jalr    zero
exit.1:
        jal     __libc_fini_array
        mv      a0,s0
        jal     _exit

printf:
        addi    sp,sp,-64
        sw      a5,52(sp)
        lui     a5,%hi(stdout)
        sw      a1,36(sp)
        mv      a1,a0
        lw      a0,%lo(stdout)(a5)
        sw      a2,40(sp)
        addi    a2,sp,36
        sw      ra,28(sp)
        sw      a3,44(sp)
        sw      a4,48(sp)
        sw      a6,56(sp)
        sw      a7,60(sp)
        sw      a2,12(sp)
        jal     vfprintf
        lw      ra,28(sp)
        addi    sp,sp,64
        ret

__ultoa_invert:
        andi    a5,a2,512
        mv      a4,a0
        li      a3,39
        mv      a0,a1
        beqz    a5,__ultoa_invert.1
        andi    a2,a2,-513
        li      a3,7
__ultoa_invert.1:
        li      a6,9
__ultoa_invert.2:
        remu    a5,a4,a2
        mv      a1,a4
        andi    a5,a5,255
        divu    a4,a4,a2
        bgeu    a6,a5,__ultoa_invert.3
        add     a5,a5,a3
        andi    a5,a5,255
__ultoa_invert.3:
        addi    a0,a0,1
        addi    a5,a5,48
        sb      a5,-1(a0)
        bgeu    a1,a2,__ultoa_invert.2
        ret

vfprintf:
__i_vfprintf:
        jal     t0,__riscv_save_12
        lbu     a5,4(a0)
        lw      s5,8(a0)
        addi    sp,sp,-32
        andi    a5,a5,2
        beqz    a5,vfprintf.42
        mv      s4,a0
        mv      s1,a2
        li      s2,0
        li      s8,37
vfprintf.1:
        lbu     s9,0(a1)
        beqz    s9,vfprintf.43
        addi    s7,a1,1
        bne     s9,s8,vfprintf.2
        lbu     s9,1(a1)
        addi    s7,a1,2
        bne     s9,s8,vfprintf.5
vfprintf.2:
        addi    s2,s2,1
vfprintf.3:
        mv      a1,s4
        mv      a0,s9
        jalr    s5
        bltz    a0,vfprintf.42
vfprintf.4:
        mv      a1,s7
        j       vfprintf.1
vfprintf.5:
        lui     a4,%hi(rodata.90)
        li      s11,0
        li      s3,0
        li      s0,0
        li      a2,31
        li      a3,108
        li      a1,116
        li      a0,122
        li      a6,104
        li      a7,106
        li      t1,76
        li      t3,42
        li      t4,46
        li      t5,127
        li      t6,16
        li      t0,9
        addi    a4,a4,%lo(rodata.90)
vfprintf.6:
        bltu    a2,s0,vfprintf.15
        addi    a5,s9,-32
        andi    a5,a5,255
        bltu    t6,a5,vfprintf.7
        slli    a5,a5,2
        add     a5,a5,a4
        lw      a5,0(a5)
        jr      a5
vfprintf.7:
        addi    a5,s9,-48
        andi    a5,a5,255
        bltu    t0,a5,vfprintf.16
vfprintf.8:
        li      t2,10
        mul     t2,s3,t2
        ori     s0,s0,32
        add     s3,t2,a5
        j       vfprintf.10
vfprintf.9:
        ori     s0,s0,1
vfprintf.10:
        lbu     s9,0(s7)
        addi    s7,s7,1
        bnez    s9,vfprintf.6
        j       vfprintf.20
vfprintf.11:
        ori     s0,s0,2
vfprintf.12:
        ori     s0,s0,4
        j       vfprintf.10
vfprintf.13:
        ori     s0,s0,8
        j       vfprintf.10
vfprintf.14:
        ori     s0,s0,16
        j       vfprintf.10
vfprintf.15:
        bltu    t5,s0,vfprintf.19
        addi    t2,s9,-48
        andi    t2,t2,255
        li      a5,9
        bltu    a5,t2,vfprintf.16
        andi    s6,s0,64
        mv      a5,t2
        beqz    s6,vfprintf.8
        li      a5,10
        mul     a5,s11,a5
        add     s11,a5,t2
        j       vfprintf.10
vfprintf.16:
        bne     s9,t3,vfprintf.18
        lw      a5,0(s1)
        addi    t2,s1,4
        andi    s1,s0,64
        bnez    s1,vfprintf.32
        bltz    a5,vfprintf.17
        ori     s0,s0,32
        mv      s1,t2
        mv      s3,a5
        j       vfprintf.10
vfprintf.17:
        neg     s3,a5
        ori     s0,s0,40
        mv      s1,t2
        j       vfprintf.10
vfprintf.18:
        bne     s9,t4,vfprintf.19
        andi    a5,s0,64
        bnez    a5,vfprintf.43
        ori     s0,s0,64
        j       vfprintf.10
vfprintf.19:
        beq     s9,a3,vfprintf.27
        bltu    a3,s9,vfprintf.26
        beq     s9,a6,vfprintf.29
        beq     s9,a7,vfprintf.31
        beq     s9,t1,vfprintf.31
vfprintf.20:
        bgez    s11,vfprintf.21
        andi    s0,s0,-65
        slli    s0,s0,16
        srli    s0,s0,16
        li      s11,0
vfprintf.21:
        ori     a4,s9,32
        addi    a5,a4,-101
        andi    a5,a5,255
        li      a3,2
        bgeu    a3,a5,vfprintf.22
        li      a5,97
        bne     a4,a5,vfprintf.33
vfprintf.22:
        addi    s1,s1,7
        andi    s1,s1,-8
        lui     s6,%hi(text.float)
        addi    s1,s1,8
        li      s9,7
        addi    s6,s6,%lo(text.float)
vfprintf.23:
        andi    s0,s0,8
        beqz    s0,vfprintf.40
vfprintf.24:
        li      s0,0
vfprintf.25:
        bne     s9,s0,vfprintf.41
        add     s0,s2,s9
        sub     s3,s3,s9
        j       vfprintf.79
vfprintf.26:
        beq     s9,a1,vfprintf.10
        beq     s9,a0,vfprintf.10
        j       vfprintf.20
vfprintf.27:
        andi    a5,s0,128
        beqz    a5,vfprintf.28
        ori     s0,s0,512
vfprintf.28:
        ori     s0,s0,128
        j       vfprintf.10
vfprintf.29:
        andi    a5,s0,256
        beqz    a5,vfprintf.30
        ori     s0,s0,512
vfprintf.30:
        ori     s0,s0,256
        j       vfprintf.10
vfprintf.31:
        ori     s0,s0,640
        j       vfprintf.10
vfprintf.32:
        mv      s1,t2
        mv      s11,a5
        j       vfprintf.10
vfprintf.33:
        addi    a5,s9,-99
        andi    a5,a5,255
        li      a3,18
        bltu    a3,a5,vfprintf.59
        lui     a3,%hi(rodata.d4)
        slli    a5,a5,2
        addi    a3,a3,%lo(rodata.d4)
        add     a5,a5,a3
        lw      a5,0(a5)
        jr      a5
vfprintf.34:
        lw      a5,0(s1)
        li      s9,1
        addi    s1,s1,4
        sb      a5,20(sp)
        addi    s6,sp,20
        j       vfprintf.23
vfprintf.35:
        lw      s6,0(s1)
        addi    s10,s1,4
        bnez    s6,vfprintf.36
        lui     s6,%hi(text.null)
        addi    s6,s6,%lo(text.null)
vfprintf.36:
        andi    a5,s0,64
        li      a1,-1
        beqz    a5,vfprintf.37
        mv      a1,s11
vfprintf.37:
        mv      a0,s6
        jal     strnlen
        mv      s9,a0
        mv      s1,s10
        j       vfprintf.23
vfprintf.38:
        mv      a1,s4
        li      a0,32
        jalr    s5
        bltz    a0,vfprintf.42
        addi    s0,s0,-1
vfprintf.39:
        bltu    s9,s0,vfprintf.38
        add     s2,s3,s2
        sub     s2,s2,s0
        mv      s3,s0
        j       vfprintf.24
vfprintf.40:
        mv      s0,s3
        j       vfprintf.39
vfprintf.41:
        add     a5,s6,s0
        lbu     a0,0(a5)
        mv      a1,s4
        addi    s0,s0,1
        jalr    s5
        bgez    a0,vfprintf.25
vfprintf.42:
        li      s2,-1
vfprintf.43:
        mv      a0,s2
        addi    sp,sp,32
        j       __riscv_restore_12
vfprintf.44:
        andi    a5,s0,128
        beqz    a5,vfprintf.49
        andi    a5,s0,512
        addi    s6,s1,4
        beqz    a5,vfprintf.45
        addi    s1,s1,7
        andi    s1,s1,-8
        addi    s6,s1,8
vfprintf.45:
        lw      a0,0(s1)
vfprintf.46:
        andi    s1,s0,-17
        slli    s1,s1,16
        srli    s1,s1,16
        bgez    a0,vfprintf.51
        neg     a0,a0
        ori     s1,s1,1024
vfprintf.47:
        addi    s0,sp,20
        li      a2,10
vfprintf.48:
        mv      a1,s0
        jal     __ultoa_invert
        andi    a5,s1,64
        sub     s0,a0,s0
        beqz    a5,vfprintf.57
        andi    a4,s1,-2
        slli    a4,a4,16
        srli    a4,a4,16
        bge     s0,s11,vfprintf.67
        beqz    s9,vfprintf.66
        andi    a5,s1,16
        bnez    a5,vfprintf.68
        mv      s10,s11
        mv      s1,a4
        j       vfprintf.52
vfprintf.49:
        andi    a5,s0,256
        lw      a0,0(s1)
        addi    s6,s1,4
        beqz    a5,vfprintf.46
        andi    a5,s0,512
        beqz    a5,vfprintf.50
        slli    a0,a0,24
        srai    a0,a0,24
        j       vfprintf.46
vfprintf.50:
        slli    a0,a0,16
        srai    a0,a0,16
        j       vfprintf.46
vfprintf.51:
        bnez    a0,vfprintf.47
        andi    a5,s0,64
        beqz    a5,vfprintf.47
        bnez    s11,vfprintf.47
        andi    s1,s0,-18
        slli    s1,s1,16
        srli    s1,s1,16
        li      s0,0
        li      s10,0
vfprintf.52:
        andi    a5,s1,1030
        beqz    a5,vfprintf.70
        addi    s10,s10,1
        li      a5,0
        j       vfprintf.70
vfprintf.53:
        andi    s0,s0,-17
        slli    s0,s0,16
        srli    s0,s0,16
        li      a2,10
vfprintf.54:
        andi    a5,s0,128
        beqz    a5,vfprintf.62
        andi    a5,s0,512
        addi    s6,s1,4
        beqz    a5,vfprintf.55
        addi    s1,s1,7
        andi    s1,s1,-8
        addi    s6,s1,8
vfprintf.55:
        lw      a0,0(s1)
vfprintf.56:
        bnez    a0,vfprintf.64
        andi    s1,s0,-23
        slli    s1,s1,16
        andi    a5,s0,64
        srli    s1,s1,16
        beqz    a5,vfprintf.65
        bnez    s11,vfprintf.65
        andi    s1,s0,-24
        slli    s1,s1,16
        srli    s1,s1,16
        li      s0,0
vfprintf.57:
        andi    a5,s1,16
        beqz    a5,vfprintf.72
        addi    s10,s0,1
        beqz    s9,vfprintf.70
        mv      a3,s0
        j       vfprintf.69
vfprintf.58:
        ori     s0,s0,16
        li      a2,16
        li      s9,120
        j       vfprintf.54
vfprintf.59:
        li      a5,120
        bne     a4,a5,vfprintf.60
        li      a5,88
        li      a2,16
        bne     s9,a5,vfprintf.54
        li      a2,528
        j       vfprintf.54
vfprintf.60:
        mv      a1,s4
        li      a0,37
        jalr    s5
        bltz    a0,vfprintf.42
        addi    s2,s2,2
        j       vfprintf.3
vfprintf.61:
        li      a2,8
        li      s9,0
        j       vfprintf.54
vfprintf.62:
        andi    a5,s0,256
        lw      a0,0(s1)
        addi    s6,s1,4
        beqz    a5,vfprintf.56
        andi    a5,s0,512
        beqz    a5,vfprintf.63
        andi    a0,a0,255
        j       vfprintf.56
vfprintf.63:
        slli    a0,a0,16
        srli    a0,a0,16
        j       vfprintf.56
vfprintf.64:
        andi    s0,s0,-7
        slli    s1,s0,16
        srli    s1,s1,16
vfprintf.65:
        addi    s0,sp,20
        j       vfprintf.48
vfprintf.66:
        andi    s1,s1,-18
        slli    s1,s1,16
        srli    s1,s1,16
        mv      s10,s11
        j       vfprintf.52
vfprintf.67:
        mv      s1,a4
        j       vfprintf.57
vfprintf.68:
        mv      a3,s0
        mv      s1,a4
        mv      s0,s11
vfprintf.69:
        addi    s10,s0,2
        mv      s0,a3
vfprintf.70:
        andi    a4,s1,8
        bnez    a4,vfprintf.75
        andi    a4,s1,1
        beqz    a4,vfprintf.71
        mv      s11,s0
        bge     s10,s3,vfprintf.71
        sub     s10,s3,s10
        add     s11,s10,s0
        mv      s10,s3
vfprintf.71:
        mv      a4,s10
        j       vfprintf.74
vfprintf.72:
        mv      s10,s0
        j       vfprintf.52
vfprintf.73:
        mv      a1,s4
        li      a0,32
        sw      a5,12(sp)
        sw      a4,8(sp)
        jalr    s5
        bltz    a0,vfprintf.42
        lw      a4,8(sp)
        lw      a5,12(sp)
        addi    a4,a4,1
vfprintf.74:
        blt     a4,s3,vfprintf.73
        sub     s10,s2,s10
        add     s2,s10,a4
        mv      s10,a4
vfprintf.75:
        beqz    a5,vfprintf.82
        mv      a1,s4
        li      a0,48
        jalr    s5
        bltz    a0,vfprintf.42
        bnez    s9,vfprintf.80
        addi    s2,s2,1
vfprintf.76:
        add     s11,s2,s11
vfprintf.77:
        sub     a5,s11,s2
        blt     s0,a5,vfprintf.85
        mv      s1,s0
vfprintf.78:
        bnez    s1,vfprintf.86
        add     s0,s0,s2
        sub     s3,s3,s10
        mv      s1,s6
vfprintf.79:
        mv      s2,s0
        add     s3,s0,s3
        j       vfprintf.88
vfprintf.80:
        addi    s2,s2,2
        mv      a1,s4
        mv      a0,s9
vfprintf.81:
        jalr    s5
        bgez    a0,vfprintf.76
        j       vfprintf.42
vfprintf.82:
        andi    a5,s1,1030
        beqz    a5,vfprintf.76
        andi    a5,s1,2
        li      a0,32
        beqz    a5,vfprintf.83
        li      a0,43
vfprintf.83:
        andi    s1,s1,1024
        beqz    s1,vfprintf.84
        li      a0,45
vfprintf.84:
        addi    s2,s2,1
        mv      a1,s4
        j       vfprintf.81
vfprintf.85:
        mv      a1,s4
        li      a0,48
        addi    s2,s2,1
        jalr    s5
        bgez    a0,vfprintf.77
        j       vfprintf.42
vfprintf.86:
        addi    s1,s1,-1
        addi    a5,sp,20
        add     a5,a5,s1
        lbu     a0,0(a5)
        mv      a1,s4
        jalr    s5
        bgez    a0,vfprintf.78
        j       vfprintf.42
vfprintf.87:
        mv      a1,s4
        li      a0,32
        addi    s2,s2,1
        jalr    s5
        bltz    a0,vfprintf.42
vfprintf.88:
        sub     a5,s3,s2
        bgtz    a5,vfprintf.87
        j       vfprintf.4

__libc_fini_array:
        jal     t0,__riscv_save_1
        li      a4,0
        li      s0,0
        sub     s0,s0,a4
        srai    s0,s0,2
        li      s1,0
__libc_fini_array.1:
        bnez    s0,__libc_fini_array.3
        li      a5,0
        beqz    a5,__libc_fini_array.2
        auipc   ra,0x0                  # %pcrel_hi(0x0)
        jalr    zero
__libc_fini_array.2:
        j       __riscv_restore_3
__libc_fini_array.3:
        addi    s0,s0,-1
        slli    a5,s0,2
        add     a5,s1,a5
        lw      a5,0(a5)
        jalr    a5
        j       __libc_fini_array.1

strnlen:
        add     a1,a0,a1
        mv      a5,a0
strnlen.1:
        beq     a5,a1,strnlen.2
        lbu     a4,0(a5)
        bnez    a4,strnlen.3
strnlen.2:
        sub     a0,a5,a0
        ret
strnlen.3:
        addi    a5,a5,1
        j       strnlen.1

__riscv_save_12:
        addi    sp,sp,-64
        li      t1,0
        sw      s11,12(sp)
        j       __riscv_save_8.1

__riscv_save_8:
__riscv_save_11:
__riscv_save_9:
__riscv_save_10:
        addi    sp,sp,-64
        li      t1,-16
__riscv_save_8.1:
        sw      s10,16(sp)
        sw      s9,20(sp)
        sw      s8,24(sp)
        sw      s7,28(sp)
        j       __riscv_save_7.1

__riscv_save_7:
__riscv_save_4:
__riscv_save_6:
__riscv_save_5:
        addi    sp,sp,-64
        li      t1,-32
__riscv_save_7.1:
        sw      s6,32(sp)
        sw      s5,36(sp)
        sw      s4,40(sp)
        sw      s3,44(sp)
        sw      s2,48(sp)
        sw      s1,52(sp)
        sw      s0,56(sp)
        sw      ra,60(sp)
        sub     sp,sp,t1
        jr      t0

__riscv_save_1:
__riscv_save_3:
__riscv_save_2:
__riscv_save_0:
        addi    sp,sp,-16
        sw      s2,0(sp)
        sw      s1,4(sp)
        sw      s0,8(sp)
        sw      ra,12(sp)
        jr      t0

__riscv_restore_12:
        lw      s11,12(sp)
        addi    sp,sp,16

__riscv_restore_10:
__riscv_restore_11:
__riscv_restore_8:
__riscv_restore_9:
        lw      s10,0(sp)
        lw      s9,4(sp)
        lw      s8,8(sp)
        lw      s7,12(sp)
        addi    sp,sp,16

__riscv_restore_5:
__riscv_restore_6:
__riscv_restore_4:
__riscv_restore_7:
        lw      s6,0(sp)
        lw      s5,4(sp)
        lw      s4,8(sp)
        lw      s3,12(sp)
        addi    sp,sp,16

__riscv_restore_3:
__riscv_restore_2:
__riscv_restore_0:
__riscv_restore_1:
        lw      s2,0(sp)
        lw      s1,4(sp)
        lw      s0,8(sp)
        lw      ra,12(sp)
        addi    sp,sp,16
        ret

        .rodata
text.0123456789abcdef:
        .asciz  "0123456789abcdef"
        .space  3
text.trap_cause:
        .asciz  "\ntrap cause="
        .space  3
text.epc:
        .asciz  " epc="
        .space  2
text.tval:
        .asciz  " tval="
        .space  1
stdout:
        .word   serial
text.got_d:
        .asciz  "got %d\n"
text.the_spinner_ran:
        .asciz  "the spinner ran"
text.no_spin:
        .asciz  "no spin"
text.switched:
        .asciz  "switched"
        .space  3
text.no_switch:
        .asciz  "no switch"
        .space  2
text.done_s_s:
        .ascii  "done, %s, %s"
text:
        .asciz  "\n"
        .space  2
text.null:
        .asciz  "(null)"
        .space  1
text.float:
        .asciz  "*float*"
rodata.90:
        .word   vfprintf.12,vfprintf.7,vfprintf.7,vfprintf.14
        .word   vfprintf.7,vfprintf.7,vfprintf.7,vfprintf.10
        .word   vfprintf.7,vfprintf.7,vfprintf.7,vfprintf.11
        .word   vfprintf.7,vfprintf.13,vfprintf.7,vfprintf.7
        .word   vfprintf.9
rodata.d4:
        .word   vfprintf.34,vfprintf.44,vfprintf.59,vfprintf.59
        .word   vfprintf.59,vfprintf.59,vfprintf.44,vfprintf.59
        .word   vfprintf.59,vfprintf.59,vfprintf.59,vfprintf.59
        .word   vfprintf.61,vfprintf.58,vfprintf.59,vfprintf.59
        .word   vfprintf.35,vfprintf.59,vfprintf.53

        .data
name.0:
__init_array_end:
__preinit_array_end:
__init_array_start:
__preinit_array_start:
        .asciz  "program"
arguments.1:
        .word   name.0,0
serial:
        .word   0,3,put,get,0
        .space  4
__tls_base:
        .space  8

        .bss
spun:
__bss_start:
        .space  4
got_at:
        .space  4
put_at:
        .space  4
box:
        .space  32
done:
        .space  4
full:
        .space  4
        .space  12
stacks:
        .space  8192
switches:
        .space  4
now:
        .space  4
current:
        .space  4
tasks:
        .space  64
        .space  4
__bss_end:
__heap_start:
