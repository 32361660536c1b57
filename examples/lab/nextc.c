// Sums the squares of the odd numbers of a table. They should make 84, which the board halts with.
#define HALT (*(volatile unsigned *)0x100000)

static const int table[] = { 1, 3, 4, 5, 7, 8 };

static int __attribute__((noinline)) square(int n)
{
    int result = n * n;
    return result;
}

int main(void)
{
    int sum = 0;
    for (int i = 0; i < 6; i++)
        if (table[i] & 1)
            sum = square(table[i]);
    return sum;
}

void __attribute__((naked, section(".text.start"))) _start(void)
{
    __asm__("la sp,__stack_top; call main; slli a0,a0,16; li t0,0x3333; or a0,a0,t0; li t1,0x100000; sw a0,(t1)");
}
