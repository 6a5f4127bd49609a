/* The process of paging.c, in mode U. It says what its page of data holds before and after a store there,
   and adds up numbers that it puts in pages of its heap. */

#include "paging.h"

/* The first data: the kernel prints it from the image. */
static char text[] = "shared page\n";

static void call(unsigned long number, unsigned long argument)
{
    register unsigned long a0 asm("a0") = argument;
    register unsigned long a7 asm("a7") = number;
    asm volatile("ecall" : : "r"(a0), "r"(a7) : "memory");
}

static void print_text(const char *from)
{
    while (*from)
        call(PRINT_BYTE, (unsigned char)*from++);
}

static volatile char *heap(int page)
{
    return (volatile char *)(unsigned long)((HEAP_PAGE + page) * PAGE_BYTES);
}

/* All pages but the last are stored to first; the last is loaded from, and is zero. */
static int sum_of_pages(void)
{
    int sum = 0;
    for (int page = 0; page < HEAP_PAGES - 1; page++)
        *heap(page) = page + 1;
    for (int page = 0; page < HEAP_PAGES; page++)
        sum += *heap(page);
    return sum;
}

static void copy_text(const char *from, volatile char *to)
{
    while (*from)
        *to++ = *from++;
}

/* The kernel enters at the first byte of the code, and paging.ld puts this section there. */
__attribute__((section(".text.begin"))) void begin(void)
{
    print_text(text);
    copy_text("copied", text);
    print_text(text);
    print_text("sum ");
    call(PRINT_BYTE, '0' + sum_of_pages());
    call(PRINT_BYTE, '\n');
    call(EXIT, 0);
}
