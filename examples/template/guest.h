/* What a guest in C, started by start.S, has of the machine. */

#ifndef GUEST_H
#define GUEST_H

typedef unsigned int u32;
typedef unsigned long u64;

/* The registers x0 to x31 of the code that took a trap, which goes on with what the handler leaves here. */
struct frame {
    u64 x[32];
};

#define READ_CSR(name) ({ u64 value; asm volatile("csrr %0, " #name : "=r"(value)); value; })
#define WRITE_CSR(name, value) asm volatile("csrw " #name ", %0" : : "r"(value) : "memory")

void shut_down(void) __attribute__((noreturn));

/* A call to the hypervisor, by its number, changes a0, and for a call that it doesn't know a1 too. */
enum { CONSOLE_PUTCHAR = 1 };

static inline void print_byte(u64 byte)
{
    register u64 a0 asm("a0") = byte;
    register u64 a7 asm("a7") = CONSOLE_PUTCHAR;
    asm volatile("ecall" : "+r"(a0) : "r"(a7) : "a1", "memory");
}

static inline void print_text(const char *text)
{
    while (*text)
        print_byte((unsigned char)*text++);
}

#endif
