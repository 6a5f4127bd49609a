/* A kernel that calls the module of timer_module.c under a timer, which stops the module again and
   again. The handler counts the stops, sets the timer anew and lets the module go on. */

#include "secure.h"
#include "template/guest.h"

enum { SET_TIMER = 0 };
enum { TIMER_BIT = 1 << 5, SIE = 1 << 1 };
enum { PERIOD = 400, MOST = 200 };
#define TIMER_INTERRUPT ((1ul << 63) + 5)

/* Of mode_u.S: takes a trap on the stack that sscratch has, and returns from it by SRET. */
void trap_from_process(void);

/* Of timer_entries_module.S: an address to call the module at, and no function of C. */
void add_up_entry(void);

/* Of module.ld: the numbers of the module's pages. */
extern const char module_code_page[], module_data_page[];

const SEGMENT_TEXT segment = {
    .magic = SEGMENT_MAGIC,
    .version = SEGMENT_VERSION,
    .mode = SEGMENT_MODE_S,
    .entry_count = 1,
    .page_count = 2,
    .entries = { (u64)add_up_entry },
    .pages = {
        { .virtual_page = (u64)module_code_page,
          .sort = SEGMENT_PRIVATE, .rights = SEGMENT_LOAD | SEGMENT_FETCH },
        { .virtual_page = (u64)module_data_page,
          .sort = SEGMENT_PRIVATE, .rights = SEGMENT_LOAD | SEGMENT_STORE },
    },
};

/* A stop leaves 0 in sp, and the kernel's own stack has what waits for the module. */
static char handler_stack[1024] __attribute__((aligned(16)));

static volatile u64 stops, registers_seen;

static void set_timer(u64 time)
{
    register u64 a0 asm("a0") = time;
    register u64 a7 asm("a7") = SET_TIMER;
    asm volatile("ecall" : "+r"(a0) : "r"(a7) : "memory");
}

static void print_number(u64 number)
{
    static const u64 powers[] = { 100000, 10000, 1000, 100, 10, 1 };
    int begun = 0;
    for (int i = 0; i < 6; i++) {
        char digit = '0';
        for (; number >= powers[i]; number -= powers[i])
            digit++;
        begun |= digit != '0' || i == 5;
        if (begun)
            print_byte(digit);
    }
}

static void print_line(const char *what, u64 number)
{
    print_text(what);
    print_number(number);
    print_text("\n");
}

/* SRET goes back to sepc: the module goes on there, with its own registers. */
void handle_trap(struct frame *frame)
{
    if (READ_CSR(scause) != TIMER_INTERRUPT) {
        print_text("unexpected trap\n");
        shut_down();
    }
    for (int i = 1; i < 32; i++)
        registers_seen |= frame->x[i];
    stops++;
    set_timer(READ_CSR(time) + PERIOD);
}

void run(void)
{
    long module = launch_module(&segment);
    u64 answer = MOST, none = 0;
    WRITE_CSR(sscratch, handler_stack + sizeof handler_stack);
    WRITE_CSR(stvec, trap_from_process);
    set_timer(READ_CSR(time) + PERIOD);
    WRITE_CSR(sie, TIMER_BIT);
    WRITE_CSR(sstatus, SIE);
    long refusal = call_module(module, (u64)add_up_entry, &answer, &none);
    WRITE_CSR(sie, 0);
    if (refusal < 0) {
        print_text("refused\n");
        return;
    }
    print_line("the module's answer: ", answer);
    print_line("times stopped: ", stops);
    print_line("what the kernel saw of its registers: ", registers_seen);
}
