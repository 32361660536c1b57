/* Adds numbers, a line for each, and then the bytes of lines: what a timed list gives to scanf, fgets and getchar. */
#include <stdio.h>

int main(void)
{
    char line[80];
    int number, sum = 0, count = 0, byte, hash = 0;
    while (scanf("%d", &number) == 1) printf("%d numbers, %d\n", ++count, sum += number);
    while (fgets(line, sizeof line, stdin) && line[0] != '.') printf("line: %s", line);
    while ((byte = getchar()) != EOF) hash = hash * 31 + byte;
    printf("bytes: %08x\n", (unsigned)hash);
    return 0;
}
