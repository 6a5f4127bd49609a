/* Texts and numbers by putchar. */

#include "console.h"

void print_text(const char *text)
{
    while (*text)
        putchar((unsigned char)*text++);
}

void print_number(uint64_t number)
{
    if (number >= 10)
        print_number(number / 10);
    putchar('0' + (int)(number % 10));
}

void print_digits(uint64_t number, int digits)
{
    while (digits-- > 0)
        putchar("0123456789abcdef"[number >> 4 * digits & 15]);
}

void print_named(const char *name, uint64_t number)
{
    print_text(name);
    putchar(' ');
    print_number(number);
    putchar('\n');
}
