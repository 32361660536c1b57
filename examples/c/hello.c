/* Sorts a table by the library's qsort, and prints it. */
#include <stdio.h>
#include <stdlib.h>

static int table[] = { 3, 1, 4, 1, 5, 9, 2, 6 };

static int compare(const void *a, const void *b)
{
    return *(const int *)a - *(const int *)b;
}

int main(void)
{
    int n = sizeof table / sizeof *table;
    qsort(table, n, sizeof *table, compare);
    for (int i = 0; i < n; i++)
        printf("%d%c", table[i], i + 1 < n ? ' ' : '\n');
    printf("hello, %s\n", "board");
    return 0;
}
