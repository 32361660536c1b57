/* A small preemptive kernel: tasks with stacks of their own, round robin by the timer, sleep, semaphores. */
#include <stdio.h>
#include "board.h"

enum { TASKS = 4, STACK = 2048, SLICE = 1000 };
/* The frame of a task that isn't running: mepc, mstatus, and the registers but x0 and sp, at their numbers. */
enum { FRAME = 32, MEPC = 0, RA = 1, MSTATUS = 2, A0 = 10 };

typedef struct {
    uint32_t *sp;
    uint32_t wake;              /* the slice before which it sleeps */
    volatile int *waits;        /* the semaphore that it waits for, or none */
    int used;
} task;

static task tasks[TASKS];
static int current;
static uint32_t now, switches;  /* slices, and changes of the task */
static uint8_t stacks[TASKS][STACK] __attribute__((aligned(16)));

static int is_ready(const task *t)
{
    return t->used && (int32_t)(now - t->wake) >= 0 && (!t->waits || *t->waits > 0);
}

/* Answers the stack of the task that goes on. */
uint32_t *schedule(uint32_t *sp, uint32_t cause)
{
    tasks[current].sp = sp;
    if (cause == CAUSE_TIMER) {
        now++;
        MTIMECMP = MTIME + SLICE;
    } else {
        sp[MEPC] += 4;                          /* ECALL: the task gives way */
    }
    for (int tried = 0; ; tried++) {
        current = (current + 1) % TASKS;
        if (is_ready(&tasks[current])) break;
        if (tried % TASKS == TASKS - 1) now++;  /* all sleep: time goes on */
    }
    if (tasks[current].waits) {
        --*tasks[current].waits;
        tasks[current].waits = NULL;
    }
    switches++;
    return tasks[current].sp;
}

__attribute__((naked, aligned(4))) static void entry(void)
{
    __asm__ volatile (
        ".macro each op\n"
        " .irp r,1,3,4,5,6,7,8,9,10,11,12,13,14,15,16,17,18,19,20,21,22,23,24,25,26,27,28,29,30,31\n"
        "  \\op x\\r, 4*\\r(sp)\n"
        " .endr\n"
        ".endm\n"
        "addi sp, sp, -128\n"
        "each sw\n"
        "csrr t0, mepc; sw t0, 0(sp); csrr t0, mstatus; sw t0, 8(sp)\n"
        "mv a0, sp; csrr a1, mcause\n"
        "call schedule\n"
        "mv sp, a0\n"
        "lw t0, 0(sp); csrw mepc, t0; lw t0, 8(sp); csrw mstatus, t0\n"
        "each lw\n"
        "addi sp, sp, 128\n"
        "mret\n"
        ".purgem each\n");
}

static void give_way(void) { __asm__ volatile ("ecall" : : : "memory"); }
static void sleep(uint32_t slices) { tasks[current].wake = now + slices; give_way(); }
static void wait(volatile int *semaphore) { tasks[current].waits = semaphore; give_way(); }
static void end(void) { tasks[current].used = 0; give_way(); }

static void post(volatile int *semaphore)
{
    csr_clear(mstatus, MSTATUS_MIE);
    ++*semaphore;
    csr_set(mstatus, MSTATUS_MIE);
}

static void start(int n, void (*body)(int), int argument)
{
    uint32_t *sp = (uint32_t *)(stacks[n] + STACK) - FRAME;
    sp[MEPC] = (uint32_t)body;
    sp[MSTATUS] = MSTATUS_MPP | MSTATUS_MPIE;
    sp[RA] = (uint32_t)end;
    sp[A0] = (uint32_t)argument;
    tasks[n] = (task){ .sp = sp, .used = 1 };
}

/* ---- the tasks */

static volatile int full, done;
static int box[8];
static unsigned put_at, got_at;
static volatile unsigned spun;

static void producer(int n)
{
    for (int i = 0; i < n; i++) {
        box[put_at++ % 8] = i * i;
        post(&full);
        sleep(2);
    }
}

static void consumer(int n)
{
    for (int i = 0; i < n; i++) {
        wait(&full);
        printf("got %d\n", box[got_at++ % 8]);
    }
    done = 1;
}

static void spinner(int n)
{
    (void)n;
    while (!done) spun++;
}

int main(void)
{
    csr_write(mtvec, entry);
    tasks[0] = (task){ .used = 1 };
    start(1, producer, 6);
    start(2, consumer, 6);
    start(3, spinner, 0);
    MTIMECMPH = 0;
    MTIMECMP = MTIME + SLICE;
    csr_set(mie, MI_TIMER);
    csr_set(mstatus, MSTATUS_MIE);
    while (!done) give_way();
    csr_clear(mstatus, MSTATUS_MIE);
    printf("done, %s, %s\n", spun > 100 ? "the spinner ran" : "no spin", switches > 12 ? "switched" : "no switch");
    return 0;
}
