#include <stdio.h>
static int put(char c, FILE *f) { (void)f; *(volatile unsigned char *)0x10000000 = (unsigned char)c; return (unsigned char)c; }
static FILE out = FDEV_SETUP_STREAM(put, NULL, NULL, _FDEV_SETUP_WRITE);
FILE *const stdin = &out; FILE *const stdout = &out; FILE *const stderr = &out;
void _exit(int code) { *(volatile unsigned *)0x100000 = code ? (unsigned)code << 16 | 0x3333 : 0x5555; for (;;); }
int getpid(void) { return 1; }
int kill(int pid, int sig) { (void)pid; _exit(sig); return -1; }
int open(const char *name, int flags, ...) { (void)name; (void)flags; return -1; }
int close(int fd) { (void)fd; return -1; }
int read(int fd, void *to, unsigned n) { (void)fd; (void)to; (void)n; return -1; }
int write(int fd, const void *from, unsigned n) { (void)fd; (void)from; (void)n; return -1; }
long lseek(int fd, long to, int from) { (void)fd; (void)to; (void)from; return -1; }
