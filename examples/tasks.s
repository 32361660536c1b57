# A supervisor that runs three tasks of user mode in turn, by the timer. Each task may execute its own 256
# bytes of code and read and write its own 64 bytes of data, and nothing else. Two of them work; the third
# tries to read the data of the first one, and is stopped.

        .equ    TRANSMIT,0x10000000
        .equ    HALT,0x100000
        .equ    MTIMECMP,0x2004000
        .equ    MTIME,0x200bff8
        .equ    PERIOD,100              # steps between two switches
        .equ    FROM_USER,8             # the cause of a call from user mode
        .equ    END,0                   # in a7, what a call asks for: to end,
        .equ    PRINT,1                 # or to print the byte in a0

# A task's record: its pc, x1 to x31, and
        .equ    CODE,128                # where its code begins
        .equ    DATA,132                # where its data begins
        .equ    NAME,136                # its letter
        .equ    LIVES,140               # 1 until it has ended
        .equ    NEXT,144                # the record of the task after it

        la      t0,trap
        csrw    mtvec,t0
        li      t0,0x1b1d               # entry 0: a power of two, read and execute; entry 1: read and write
        csrw    pmpcfg0,t0
        li      t0,0x80                 # the timer interrupt of machine mode
        csrw    mie,t0
        la      t6,first
        csrw    mscratch,t6             # mscratch has the record of the task that runs
        call    arm

# Goes on with the task in mscratch. Protection is set for it before it runs.
resume: csrr    t6,mscratch
        lw      t0,CODE(t6)
        srli    t0,t0,2                 # 256 bytes: the address without its two low bits, and five bits set
        ori     t0,t0,0x1f
        csrw    pmpaddr0,t0
        lw      t0,DATA(t6)
        srli    t0,t0,2                 # 64 bytes: three bits set
        ori     t0,t0,0x7
        csrw    pmpaddr1,t0
        lw      t0,(t6)
        csrw    mepc,t0
        lw      x1,4(t6)
        lw      x2,8(t6)
        lw      x3,12(t6)
        lw      x4,16(t6)
        lw      x5,20(t6)
        lw      x6,24(t6)
        lw      x7,28(t6)
        lw      x8,32(t6)
        lw      x9,36(t6)
        lw      x10,40(t6)
        lw      x11,44(t6)
        lw      x12,48(t6)
        lw      x13,52(t6)
        lw      x14,56(t6)
        lw      x15,60(t6)
        lw      x16,64(t6)
        lw      x17,68(t6)
        lw      x18,72(t6)
        lw      x19,76(t6)
        lw      x20,80(t6)
        lw      x21,84(t6)
        lw      x22,88(t6)
        lw      x23,92(t6)
        lw      x24,96(t6)
        lw      x25,100(t6)
        lw      x26,104(t6)
        lw      x27,108(t6)
        lw      x28,112(t6)
        lw      x29,116(t6)
        lw      x30,120(t6)
        lw      x31,124(t6)
        mret

# Every trap: all registers of the task are saved in its record.
trap:   csrrw   t6,mscratch,t6
        sw      x1,4(t6)
        sw      x2,8(t6)
        sw      x3,12(t6)
        sw      x4,16(t6)
        sw      x5,20(t6)
        sw      x6,24(t6)
        sw      x7,28(t6)
        sw      x8,32(t6)
        sw      x9,36(t6)
        sw      x10,40(t6)
        sw      x11,44(t6)
        sw      x12,48(t6)
        sw      x13,52(t6)
        sw      x14,56(t6)
        sw      x15,60(t6)
        sw      x16,64(t6)
        sw      x17,68(t6)
        sw      x18,72(t6)
        sw      x19,76(t6)
        sw      x20,80(t6)
        sw      x21,84(t6)
        sw      x22,88(t6)
        sw      x23,92(t6)
        sw      x24,96(t6)
        sw      x25,100(t6)
        sw      x26,104(t6)
        sw      x27,108(t6)
        sw      x28,112(t6)
        sw      x29,116(t6)
        sw      x30,120(t6)
        csrrw   t0,mscratch,t6
        sw      t0,124(t6)
        csrr    t0,mepc
        sw      t0,(t6)

        csrr    t1,mcause
        bltz    t1,switch               # an interrupt: the timer's
        li      t2,FROM_USER
        bne     t1,t2,refuse
        addi    t0,t0,4                 # a call: the task goes on after it
        sw      t0,(t6)
        li      t2,TRANSMIT
        beqz    a7,finish
        sw      a0,(t2)
        j       resume

# Anything else: the task did something that it may not do. Its letter and the cause are printed, and it ends.
refuse: li      t2,TRANSMIT
        li      t0,'['
        sw      t0,(t2)
        lw      t0,NAME(t6)
        sw      t0,(t2)
        li      t0,' '
        sw      t0,(t2)
        addi    t0,t1,'0'
        sw      t0,(t2)
        li      t0,']'
        sw      t0,(t2)

finish: sw      zero,LIVES(t6)
        la      t0,living
        lw      t1,(t0)
        addi    t1,t1,-1
        sw      t1,(t0)
        bnez    t1,switch
        li      t0,'\n'                 # all have ended
        sw      t0,(t2)
        li      t0,HALT
        li      t1,0x5555
        sw      t1,(t0)

# The next task that has not ended.
switch: lw      t6,NEXT(t6)
        lw      t0,LIVES(t6)
        beqz    t0,switch
        csrw    mscratch,t6
        call    arm
        j       resume

# Asks for an interrupt after a period from now.
arm:    li      t0,MTIME
        lw      t1,(t0)
        addi    t1,t1,PERIOD
        li      t0,MTIMECMP
        sw      t1,(t0)
        sw      zero,4(t0)
        ret

        .balign 4
living: .word   3

first:  .word   task_a
        .space  124
        .word   task_a,data_a,'a',1,second
second: .word   task_b
        .space  124
        .word   task_b,data_b,'b',1,third
third:  .word   task_c
        .space  124
        .word   task_c,data_c,'c',1,first

# Prints a letter ten times, and counts in its own data.
        .balign 256
task_a: la      s0,data_a
1:      li      a0,'a'
        li      a7,PRINT
        ecall
        lw      s1,(s0)
        addi    s1,s1,1
        sw      s1,(s0)
        li      s2,10
        bne     s1,s2,1b
        li      a7,END
        ecall

# The same with another letter.
        .balign 256
task_b: la      s0,data_b
1:      li      a0,'b'
        li      a7,PRINT
        ecall
        lw      s1,(s0)
        addi    s1,s1,1
        sw      s1,(s0)
        li      s2,10
        bne     s1,s2,1b
        li      a7,END
        ecall

# Prints a letter, and then reads what the first task has counted: a load that is refused (cause 5).
        .balign 256
task_c: li      a0,'c'
        li      a7,PRINT
        ecall
        la      s0,data_a
        lw      a0,(s0)
        ecall                           # never reached

# After the last task's 256 bytes, all of which it may read.
        .balign 256
data_a: .space  64
data_b: .space  64
data_c: .space  64
