/* A task in user mode under protection: it may execute its code and write its page, and calls the system by ECALL. */
#include <stdio.h>
#include <stdlib.h>
#include "board.h"

enum { WRITE = 1, EXIT = 2 };           /* the numbers of calls */
enum { A0 = 10, A7 = 17 };              /* the numbers of registers */

/* The linker names where a section begins and ends. */
extern char __start_user_code[], __stop_user_code[];
static uint8_t user_page[4096] __attribute__((aligned(4096)));
static int secret = 42;
static uint32_t saved[32];              /* the task's registers while its trap is handled */

#define USER __attribute__((section("user_code"), noinline))

USER static uint32_t call(uint32_t number, uint32_t argument)
{
    register uint32_t a0 __asm__("a0") = argument;
    register uint32_t a7 __asm__("a7") = number;
    __asm__ volatile ("ecall" : "+r"(a0) : "r"(a7) : "memory");
    return a0;
}

USER static void task(void)
{
    char *mine = (char *)user_page;
    for (int i = 0; i < 26; i++) mine[i] = 'a' + i;
    for (int i = 0; i < 26; i++) call(WRITE, mine[i]);
    call(WRITE, '\n');
    secret = 0;                         /* protection refuses this */
    call(EXIT, 0);
}

/* Handles a trap of the task; answers where it goes on. */
uint32_t handle(uint32_t cause, uint32_t epc, uint32_t tval)
{
    if (cause == CAUSE_USER_CALL && saved[A7] == WRITE) {
        putchar((int)saved[A0]);
        return epc + 4;
    }
    if (cause == CAUSE_USER_CALL && saved[A7] == EXIT) {
        printf("exit\n");
        exit(1);
    }
    printf("cause %lu, the address is that of secret: %d, secret is %d\n", (unsigned long)cause,
           tval == (uint32_t)&secret, secret);
    exit(cause == CAUSE_STORE && secret == 42 ? 0 : 2);
}

/* mscratch holds the address of `saved` while the task runs, and the task's a0 while its trap is handled. */
__attribute__((naked, aligned(4))) static void entry(void)
{
    __asm__ volatile (
        ".macro each op\n"
        " .irp r,1,2,3,4,5,6,7,8,9,11,12,13,14,15,16,17,18,19,20,21,22,23,24,25,26,27,28,29,30,31\n"
        "  \\op x\\r, 4*\\r(a0)\n"
        " .endr\n"
        ".endm\n"
        "csrrw a0, mscratch, a0\n"
        "each sw\n"
        "csrr t0, mscratch; sw t0, 40(a0); csrw mscratch, a0\n"
        "la sp, __stack_top; la tp, __tls_base\n"
        "csrr a0, mcause; csrr a1, mepc; csrr a2, mtval\n"
        "call handle\n"
        "csrw mepc, a0; csrr a0, mscratch\n"
        "each lw\n"
        "lw a0, 40(a0)\n"
        "mret\n"
        ".purgem each\n");
}

int main(void)
{
    csr_write(mtvec, entry);
    csr_write(mscratch, saved);
    csr_write(pmpaddr0, (uint32_t)__start_user_code >> 2);
    csr_write(pmpaddr1, (uint32_t)__stop_user_code >> 2);
    csr_write(pmpaddr2, (uint32_t)user_page >> 2 | 0x1ff);
    csr_write(pmpcfg0, (PMP_TOR | PMP_X | PMP_R) << 8 | (PMP_NAPOT | PMP_R | PMP_W) << 16);
    csr_clear(mstatus, MSTATUS_MPP);
    csr_write(mepc, task);
    __asm__ volatile ("mv sp, %0; mret" : : "r"(user_page + sizeof user_page));
    __builtin_unreachable();
}
