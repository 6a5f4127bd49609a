/* The process of sealed.c, in mode U. For each of three keys it calls the module and has the count
   printed; which key it is doesn't matter. */

#include "sealed.h"
#include "secure.h"

enum { KEYS = 3 };

/* Of sealed_entries_module.S. */
void count_up_entry(void);

static unsigned long call(unsigned long number, unsigned long argument)
{
    register unsigned long a0 asm("a0") = argument;
    register unsigned long a7 asm("a7") = number;
    asm volatile("ecall" : "+r"(a0) : "r"(a7) : "memory");
    return a0;
}

/* The count, or why it wasn't counted. */
static unsigned long count_up(unsigned long module)
{
    unsigned long count = 0, none = 0;
    long refusal = call_module(module, (unsigned long)count_up_entry, &count, &none);
    return refusal < 0 ? (unsigned long)refusal : count;
}

void begin(void)
{
    unsigned long module = call(MODULE_ID, 0);
    for (int keys = 0; keys < KEYS; keys++) {
        while (call(NEXT_KEY, 0) == NO_KEY)
            ;
        call(PRINT_BYTE, count_up(module));
    }
    call(EXIT, 0);
}
