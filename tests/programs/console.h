/* What the programs of this folder print with. All of it comes down to putchar, which is the C
   library's on a host and that of machine.c on the machine. */

#ifndef CONSOLE_H
#define CONSOLE_H

#include <stdint.h>

int putchar(int byte);

void print_text(const char *text);
void print_number(uint64_t number);

/* In hexadecimal, with so many digits. */
void print_digits(uint64_t number, int digits);

/* A line: a name, and a number behind it. */
void print_named(const char *name, uint64_t number);

#endif
