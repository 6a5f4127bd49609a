/* The process's side of process.c: where it begins, and how it prints. */

#include "process.h"

int main(void);

static void call(unsigned long number, unsigned long argument)
{
    register unsigned long a0 asm("a0") = argument;
    register unsigned long a7 asm("a7") = number;
    asm volatile("ecall" : : "r"(a0), "r"(a7) : "memory");
}

/* What the C library has on a host. */
int putchar(int byte)
{
    call(PRINT_BYTE, (unsigned char)byte);
    return (unsigned char)byte;
}

/* process.ld puts this section first. */
__attribute__((section(".text.begin"))) void begin(void)
{
    main();
    call(EXIT, 0);
}
