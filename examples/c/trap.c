/* A handler in C: it counts the timer's interrupts, answers ECALL, and steps over an illegal instruction. */
#include <stdio.h>
#include "board.h"

enum { PERIOD = 500, TICKS = 5 };
static volatile unsigned ticks, calls, illegal;

INTERRUPT static void handler(void)
{
    uint32_t cause = csr_read(mcause);
    switch (cause) {
    case CAUSE_TIMER:
        ticks++;
        MTIMECMP = MTIME + PERIOD;
        return;
    case CAUSE_CALL:
        calls++;
        break;
    case CAUSE_ILLEGAL:
        illegal++;
        break;
    default:
        board_trap(cause, csr_read(mepc), csr_read(mtval));
    }
    csr_write(mepc, csr_read(mepc) + 4);    /* behind the instruction that trapped */
}

int main(void)
{
    csr_write(mtvec, handler);
    __asm__ volatile ("ecall" : : : "memory");
    __asm__ volatile ("csrw mhartid, zero" : : : "memory");     /* illegal: it can't be written */
    MTIMECMPH = 0;
    MTIMECMP = MTIME + PERIOD;
    csr_set(mie, MI_TIMER);
    csr_set(mstatus, MSTATUS_MIE);
    while (ticks < TICKS) { }
    csr_clear(mstatus, MSTATUS_MIE);
    printf("ticks %u, calls %u, illegal %u\n", ticks, calls, illegal);
    return 0;
}
