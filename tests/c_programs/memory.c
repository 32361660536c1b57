/* What lib/board.ld gives memory to is kept apart: a thread's variables that are zeros alone, a section of the program's
   own, .bss and the heap. */
#include <signal.h>
#include <stdint.h>
#include <stdio.h>
#include <stdlib.h>
#include <string.h>

enum { SIZE = 100, SMALL = 8, ALIGNED = 256 };
static _Thread_local _Alignas(ALIGNED) unsigned char of_thread[SIZE];
static unsigned char of_section[SIZE] __attribute__((section(".noinit")));
static unsigned char of_all[SMALL];

static void handler(int number) { (void)number; }

/* Prints whether all bytes hold this value; 0 if they do. */
static int tell(const char *name, const unsigned char *bytes, int size, int value)
{
    int same = 0;
    while (same < size && bytes[same] == value) same++;
    printf("%s: %s\n", name, same == size ? "kept" : "overwritten");
    return same != size;
}

int main(int argc, char **argv)
{
    unsigned char *of_heap = malloc(SIZE);
    int faults = 0;
    memset(of_all, 1, SMALL);
    memset(of_heap, 2, SIZE);
    memset(of_section, 3, SIZE);
    memset(of_thread, 4, SIZE);
    faults += tell("variables", of_all, SMALL, 1);
    faults += tell("heap", of_heap, SIZE, 2);
    faults += tell("section", of_section, SIZE, 3);
    signal(SIGINT, handler);            /* the library keeps handlers for each thread */
    memset(malloc(SIZE), 5, SIZE);
    faults += tell("thread", of_thread, SIZE, 4);
    printf("aligned: %d\n", (uintptr_t)of_thread % ALIGNED == 0);
    printf("argv: %d, %s\n", argc, argv[0] ? argv[0] : "no name");
    return faults;
}
