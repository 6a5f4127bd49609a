/* Makes a C program a guest of the machine: start.S of the template calls run, and a trap, which no
   program here should take, ends the run. */

#include "guest.h"

int main(void);

/* What the C library has on a host. */
int putchar(int byte)
{
    print_byte((unsigned char)byte);
    return (unsigned char)byte;
}

void handle_trap(struct frame *frame)
{
    (void)frame;
    print_text("trap\n");
    shut_down();
}

void run(void)
{
    main();
}
