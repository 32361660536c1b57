/* A driver: bytes of the serial port come with edges of source 24; whole lines are sent back in capitals. */
#include <ctype.h>
#include <stdio.h>
#include <string.h>
#include "board.h"

enum { SOURCE = 24, SIZE = 64 };
static volatile char ring[SIZE];
static volatile unsigned head, tail, lost;

INTERRUPT static void handler(void)
{
    uint32_t source = PLIC_CLAIM;
    if (source == SOURCE) {
        uint32_t byte;
        while (!((byte = SERIAL_RECEIVE) >> 31)) {
            if (head - tail < SIZE) ring[head++ % SIZE] = (char)byte;
            else lost++;
        }
    }
    PLIC_CLAIM = source;
}

/* The next received byte; it waits for one. */
static int next(void)
{
    while (head == tail) __asm__ volatile ("wfi");
    return ring[tail++ % SIZE];
}

/* Reads a line without its end, as much of it as there is room for. */
static unsigned read_line(char *line, unsigned room)
{
    unsigned n = 0;
    for (int c; (c = next()) != '\n'; )
        if (n + 1 < room) line[n++] = (char)c;
    line[n] = 0;
    return n;
}

int main(void)
{
    char line[40];
    csr_write(mtvec, handler);
    PLIC_PRIORITY(SOURCE) = 1;
    PLIC_ENABLE = 1u << SOURCE;
    PLIC_THRESHOLD = 0;
    csr_set(mie, MI_EXTERNAL);
    csr_set(mstatus, MSTATUS_MIE);
    for (;;) {
        unsigned n = read_line(line, sizeof line);
        if (!strcmp(line, "quit")) break;
        for (unsigned i = 0; i < n; i++) line[i] = (char)toupper((unsigned char)line[i]);
        printf("%u: %s\n", n, line);
    }
    printf("lost %u\n", lost);
    return 0;
}
