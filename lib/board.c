/* What C's library asks of the board: the serial port as standard input and output, and the halt register as exit. */
#include <errno.h>
#include <stdint.h>
#include <stdio.h>
#include <stdlib.h>
#include <sys/time.h>
#include <sys/times.h>
#include <unistd.h>
#include "board.h"

#define WEAK __attribute__((weak))
enum { END_OF_INPUT = 4 };              /* Ctrl-D */

/* ---- the serial port */

static int put(char c, FILE *file)
{
    (void)file;
    SERIAL_TRANSMIT = (uint8_t)c;
    return (unsigned char)c;
}

/* The next received byte; it waits for one. */
static int get(FILE *file)
{
    uint32_t byte;
    (void)file;
    do byte = SERIAL_RECEIVE; while (byte >> 31);
    return byte == END_OF_INPUT ? _FDEV_EOF : (int)byte;
}

static FILE serial = FDEV_SETUP_STREAM(put, get, NULL, _FDEV_SETUP_RW);
FILE *const stdin = &serial;
FILE *const stdout = &serial;
FILE *const stderr = &serial;

/* ---- start and end */

typedef void constructor(void);
extern constructor *__preinit_array_start[], *__preinit_array_end[], *__init_array_start[], *__init_array_end[];

/* Calls the constructors, and returns what main finds in argv: a name, and no words. */
char **board_init(void)
{
    static char name[] = "program", *arguments[] = { name, NULL };
    for (constructor **it = __preinit_array_start; it != __preinit_array_end; it++) (*it)();
    for (constructor **it = __init_array_start; it != __init_array_end; it++) (*it)();
    return arguments;
}

void _exit(int code)
{
    for (;;) HALT = code ? (uint32_t)code << 16 | 0x3333 : 0x5555;
}

static void put_text(const char *text)
{
    while (*text) SERIAL_TRANSMIT = (uint8_t)*text++;
}

static void put_word(const char *name, uint32_t word)
{
    put_text(name);
    for (int shift = 28; shift >= 0; shift -= 4) SERIAL_TRANSMIT = (uint8_t)"0123456789abcdef"[word >> shift & 15];
}

void board_trap(uint32_t cause, uint32_t epc, uint32_t tval)
{
    put_word("\ntrap cause=", cause);
    put_word(" epc=", epc);
    put_word(" tval=", tval);
    put_text("\n");
    _exit(128 + (int)(cause & 31));
}

/* ---- the time: a step is a microsecond */

uint64_t board_steps(void)
{
    uint32_t high, low;
    do {
        high = MTIMEH;
        low = MTIME;
    } while (high != MTIMEH);
    return (uint64_t)high << 32 | low;
}

WEAK int gettimeofday(struct timeval *time, void *zone)
{
    uint64_t now = board_steps();
    (void)zone;
    time->tv_sec = (time_t)(now / 1000000);
    time->tv_usec = (suseconds_t)(now % 1000000);
    return 0;
}

WEAK clock_t times(struct tms *times)
{
    clock_t now = (clock_t)board_steps();
    if (times) *times = (struct tms){ .tms_utime = now };
    return now;
}

/* ---- POSIX calls that parts of the library name; there are no files */

WEAK int open(const char *name, int flags, ...) { (void)name; (void)flags; errno = ENOENT; return -1; }
WEAK int close(int file) { (void)file; return 0; }
WEAK off_t lseek(int file, off_t to, int from) { (void)file; (void)to; (void)from; errno = ESPIPE; return -1; }
WEAK int unlink(const char *name) { (void)name; errno = ENOENT; return -1; }
WEAK int rename(const char *from, const char *to) { (void)from; (void)to; errno = ENOENT; return -1; }
WEAK int isatty(int file) { return file < 3; }
WEAK int getpid(void) { return 1; }
WEAK int kill(int process, int signal) { (void)process; _exit(128 + signal); }

WEAK ssize_t read(int file, void *to, size_t count)
{
    int c = file || !count ? -1 : get(NULL);
    if (c < 0) return 0;
    *(unsigned char *)to = (unsigned char)c;
    return 1;
}

WEAK ssize_t write(int file, const void *from, size_t count)
{
    (void)file;
    for (size_t i = 0; i < count; i++) SERIAL_TRANSMIT = ((const uint8_t *)from)[i];
    return (ssize_t)count;
}

WEAK ssize_t _write(int file, const void *from, size_t count) { return write(file, from, count); }

/* ---- what C++ asks of its library, without exceptions: new, delete, and a pure virtual call */

WEAK void *_Znwj(size_t size)
{
    void *room = malloc(size ? size : 1);
    if (!room) abort();
    return room;
}

WEAK void *_Znaj(size_t size) { return _Znwj(size); }
WEAK void _ZdlPv(void *room) { free(room); }
WEAK void _ZdlPvj(void *room, size_t size) { (void)size; free(room); }
WEAK void _ZdaPv(void *room) { free(room); }
WEAK void _ZdaPvj(void *room, size_t size) { (void)size; free(room); }
WEAK void __cxa_pure_virtual(void) { abort(); }
WEAK void *__dso_handle;

/* ---- what else programs of other systems name: there are no processes and no alarms */

WEAK unsigned alarm(unsigned seconds) { (void)seconds; return 0; }
WEAK int system(const char *command) { (void)command; return command ? -1 : 0; }
WEAK FILE *popen(const char *command, const char *how) { (void)command; (void)how; errno = ENOSYS; return NULL; }
WEAK int pclose(FILE *file) { (void)file; return -1; }
