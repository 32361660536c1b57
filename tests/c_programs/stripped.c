/* A state machine that counts the words and numbers of a text. It is linked by lld, without symbols and relocations. */
#include <stdint.h>

#define TRANSMIT (*(volatile uint8_t *)0x10000000)
#define HALT (*(volatile uint32_t *)0x100000)

enum state { BETWEEN, WORD, NUMBER };
static const char text[] = "7 boards, 31 sources and 1 serial port";
static unsigned counts[3];

static enum state next(enum state state, char c)
{
    switch (c) {
    case ' ': case ',': return BETWEEN;
    case '0': case '1': case '2': case '3': case '4':
    case '5': case '6': case '7': case '8': case '9': return state == WORD ? WORD : NUMBER;
    default: return WORD;
    }
}

static void print(unsigned n)
{
    if (n >= 10) print(n / 10);
    TRANSMIT = (uint8_t)('0' + n % 10);
}

__attribute__((section(".text.start"), used, noreturn)) void count(void)
{
    enum state state = BETWEEN;
    for (const char *at = text; *at; at++) {
        enum state then = next(state, *at);
        if (then != state) counts[then]++;
        state = then;
    }
    print(counts[WORD]);
    TRANSMIT = ' ';
    print(counts[NUMBER]);
    TRANSMIT = '\n';
    for (;;) HALT = 0x5555;
}

/* The linker puts this first: nobody has set sp yet. */
__asm__(".section .text.first, \"ax\"\n.globl first\nfirst: lui sp, 0x80010\n j count\n");
