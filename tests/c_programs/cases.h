/* Each case has a number in gp; a wrong result ends the run with that number as its code. */
#include "board.h"
#define START .section .text.start, "ax"; .globl _start; _start: li gp, 0; la t5, behind; csrw mtvec, t5;
#define END bne x0, gp, right; wrong: mv a0, gp; j halt; right: li a0, 0; j halt
#define CASE(number, register, value, code...) \
case_ ## number: \
    code; \
    li  t2, value; \
    li  gp, number; \
    bne register, t2, wrong;
#define RR_CASE(number, word, value, one, two) \
    CASE(number, a4, value, li a1, one; li a2, two; word a4, a1, a2;)
#define IMMEDIATE_CASE(number, word, value, one, immediate) \
    CASE(number, a4, value, li a3, one; word a4, a3, immediate;)
#define LOAD_CASE(number, word, value, offset, base) \
    CASE(number, a4, value, la a5, base; word a4, offset(a5);)
