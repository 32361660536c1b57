/* Calls the student's function on tables, and counts its instructions by minstret: right and fast enough, or not. */
#include <stdio.h>
#include "board.h"

/* The largest difference of two numbers of a table of n > 0. */
int largest_gap(const int *table, int n);

enum { FEW = 200, MANY = 4000 };        /* the most instructions for a small table, and for the large one */
static const int four[] = { 3, 9, 1, 7 }, two[] = { -5, 5 }, one[] = { 4 };
static int many[200];

static int try(const char *name, const int *table, int n, int right, uint32_t most)
{
    uint32_t before = csr_read(minstret);
    int got = largest_gap(table, n);
    uint32_t taken = csr_read(minstret) - before;
    if (got != right) {
        printf("%s: wrong, %d and not %d\n", name, got, right);
        return 0;
    }
    if (taken > most) {
        printf("%s: right, but %lu instructions, more than %lu\n", name, (unsigned long)taken, (unsigned long)most);
        return 0;
    }
    printf("%s: right\n", name);
    return 1;
}

int main(void)
{
    int n = 0;
    for (int i = 0; i < 200; i++) many[i] = i * 7919 % 1009;
    n += try("four", four, 4, 8, FEW);
    n += try("two", two, 2, 10, FEW);
    n += try("one", one, 1, 0, FEW);
    n += try("many", many, 200, 1005, MANY);
    printf("%d of 4\n", n);
    return n == 4 ? 0 : 1;
}
