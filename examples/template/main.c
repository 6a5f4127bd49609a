/* A guest to begin with. start.S calls run, and shuts the machine down when it returns; a trap
   calls handle_trap. This one greets, counts the primes below 1,000, and comes back from a
   breakpoint. */

#include "guest.h"

enum { BREAKPOINT = 3 };
enum { LIMIT = 1000 };

static void print_number(u64 number, u64 base)
{
    if (number >= base)
        print_number(number / base, base);
    print_byte((unsigned char)"0123456789abcdef"[number % base]);
}

/* A breakpoint goes on behind its instruction. Any other trap ends the run. */
void handle_trap(struct frame *frame)
{
    u64 cause = READ_CSR(scause), place = READ_CSR(sepc);
    (void)frame;
    print_text("trap ");
    print_number(cause, 10);
    print_text(" at 0x");
    print_number(place, 16);
    print_text("\n");
    if (cause != BREAKPOINT)
        shut_down();
    WRITE_CSR(sepc, place + 4);
}

static u64 count_primes(void)
{
    static unsigned char is_composite[LIMIT];
    u64 count = 0;
    for (u64 n = 2; n < LIMIT; n++) {
        if (is_composite[n])
            continue;
        count++;
        for (u64 multiple = n * n; multiple < LIMIT; multiple += n)
            is_composite[multiple] = 1;
    }
    return count;
}

void run(void)
{
    print_text("hello\n");
    print_number(count_primes(), 10);
    print_text(" primes below ");
    print_number(LIMIT, 10);
    print_text("\n");
    asm volatile("ebreak");
    print_text("good bye\n");
}
