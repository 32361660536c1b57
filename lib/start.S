# What runs before main: registers, a trap handler that tells and halts, constructors, main, and the halt. The memory
# holds zeros where the program's image has nothing, so .bss needs no clearing.
        .section .text.start, "ax"
        .globl  _start
_start:
        .option norelax
        la      t0, first_trap
        csrw    mtvec, t0
        la      sp, __stack_top
        la      tp, __tls_base
        call    board_init
        mv      a1, a0
        li      a0, 1
        call    main
        tail    exit

# The first trap of a program that has set no handler: its cause and its place are told, and the run ends.
        .balign 4
first_trap:
        la      sp, __stack_top
        csrr    a0, mcause
        csrr    a1, mepc
        csrr    a2, mtval
        tail    board_trap
