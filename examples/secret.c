/* A kernel that tries what it can to learn a module's secret. A timer stops the module of
   secret_module.c while it makes the secret, in its page and in its registers. The kernel looks at
   the registers, at the page by three ways, jumps into the module, calls it, and launches another
   module over its page. Then it lets the module go on, asks it what it tells to everybody, and
   evicts it. */

#include "secure.h"
#include "template/guest.h"

enum { FETCH_ACCESS_FAULT = 1, LOAD_ACCESS_FAULT = 5, STORE_ACCESS_FAULT = 7 };
enum { SET_TIMER = 0 };
enum { TIMER_BIT = 1 << 5, SIE = 1 << 1 };
enum { PERIOD = 300 };
enum { PAGE_BYTES = 4096 };
enum { RA = 1, SP = 2 };
#define TIMER_INTERRUPT ((1ul << 63) + 5)

/* A leaf of 1 GiB to the beginning of RAM, with V, R, W, X, A and D. */
#define LEAF_OF_RAM (0x80000ul << 10 | 0xcf)
#define SV39 (8ul << 60)
#define RAM 0x80000000ul
#define SECOND_GIB 0x40000000ul

/* Of mode_u.S: takes a trap on the stack that sscratch has, and returns from it by SRET. */
void trap_from_process(void);

/* Of secret_module.c. */
extern volatile u64 secret[];
u64 fingerprint(void);

/* Of secret_entries_module.S: addresses to call the module at, and no functions of C. */
void make_secret_entry(void);
void fingerprint_entry(void);

/* Of module.ld: the numbers of the module's pages. */
extern const char module_code_page[], module_data_page[];

const SEGMENT_TEXT segment = {
    .magic = SEGMENT_MAGIC,
    .version = SEGMENT_VERSION,
    .mode = SEGMENT_MODE_S,
    .entry_count = 2,
    .page_count = 2,
    .entries = { (u64)make_secret_entry, (u64)fingerprint_entry },
    .pages = {
        { .virtual_page = (u64)module_code_page,
          .sort = SEGMENT_PRIVATE, .rights = SEGMENT_LOAD | SEGMENT_FETCH },
        { .virtual_page = (u64)module_data_page,
          .sort = SEGMENT_PRIVATE, .rights = SEGMENT_LOAD | SEGMENT_STORE },
    },
};

/* A module that would have the page with the secret for itself. */
const SEGMENT_TEXT thief = {
    .magic = SEGMENT_MAGIC,
    .version = SEGMENT_VERSION,
    .mode = SEGMENT_MODE_S,
    .entry_count = 1,
    .page_count = 1,
    .entries = { (u64)secret },
    .pages = {
        { .virtual_page = (u64)module_data_page,
          .sort = SEGMENT_PRIVATE, .rights = SEGMENT_LOAD | SEGMENT_FETCH },
    },
};

static u64 root[PAGE_BYTES / sizeof(u64)] __attribute__((aligned(PAGE_BYTES)));

/* The kernel's own stack has what waits for the module. So handler and attempts have others. */
static char handler_stack[1024] __attribute__((aligned(16)));
static char attempts_stack[1024] __attribute__((aligned(16)));

static long module;
static u64 stopped_at;

/* An access that is expected to be denied, and whether it was. */
static volatile int is_trying, is_denied;

static void set_timer(u64 time)
{
    register u64 a0 asm("a0") = time;
    register u64 a7 asm("a7") = SET_TIMER;
    asm volatile("ecall" : "+r"(a0) : "r"(a7) : "memory");
}

/* A number or a refusal of one digit. */
static void print_answer(const char *what, long answer)
{
    print_text(what);
    if (answer < 0)
        print_byte('-');
    print_byte('0' + (answer < 0 ? -answer : answer));
    print_text("\n");
}

static void print_word(const char *what, u64 word)
{
    print_text(what);
    for (int shift = 60; shift >= 0; shift -= 4)
        print_byte("0123456789abcdef"[word >> shift & 15]);
    print_text("\n");
}

static void begin_attempt(const char *what)
{
    print_text(what);
    is_trying = 1;
    is_denied = 0;
}

static void end_attempt(void)
{
    is_trying = 0;
    print_text(is_denied ? "denied\n" : "not denied\n");
}

static void try_load(const char *what, u64 address)
{
    begin_attempt(what);
    (void)*(volatile u64 *)address;
    end_attempt();
}

static void try_store(const char *what, u64 address, u64 value)
{
    begin_attempt(what);
    *(volatile u64 *)address = value;
    end_attempt();
}

static void try_jump(const char *what, u64 address)
{
    begin_attempt(what);
    ((void (*)(void))address)();
    end_attempt();
}

/* The answer that the module gives, or why it wasn't called. */
static u64 ask(long id, u64 entry)
{
    u64 answer = 0, none = 0;
    long refusal = call_module(id, entry, &answer, &none);
    return refusal < 0 ? (u64)refusal : answer;
}

/* RAM at its own addresses and at 0, and a pointer to a table that would be the module's page. */
static void lead_to_the_secret(void)
{
    root[0] = LEAF_OF_RAM;
    root[1] = (u64)secret / PAGE_BYTES << 10 | 1;
    root[2] = LEAF_OF_RAM;
    WRITE_CSR(satp, SV39 | (u64)root / PAGE_BYTES);
}

/* The kernel goes on here after the module was stopped. */
static void __attribute__((noreturn)) try_all(void)
{
    u64 page = (u64)secret;
    try_load("load the secret: ", page);
    try_store("store there: ", page, 0);
    lead_to_the_secret();
    try_load("load it at another address: ", page - RAM);
    try_store("make it a page table: ", page, LEAF_OF_RAM);
    try_load("load by that table: ", SECOND_GIB);
    try_jump("jump to its entry: ", (u64)fingerprint_entry);
    try_jump("jump behind where it was stopped: ", stopped_at + 4);
    print_answer("call it: ", ask(module, (u64)fingerprint_entry));
    print_answer("call it elsewhere: ", ask(module, (u64)fingerprint));
    print_answer("call another: ", ask(module + 1, (u64)fingerprint_entry));
    print_answer("launch over it: ", launch_module(&thief));
    print_text("let it go on\n");
    ((void (*)(void))stopped_at)();
    __builtin_unreachable();
}

/* After an attempt that is denied the kernel goes on behind it. */
static void pass_over(struct frame *frame)
{
    is_denied = 1;
    if (READ_CSR(scause) == FETCH_ACCESS_FAULT)
        WRITE_CSR(sepc, frame->x[RA]);
    else
        WRITE_CSR(sepc, READ_CSR(sepc) + 4);
}

static void leave_module(struct frame *frame)
{
    u64 seen = 0;
    for (int i = 1; i < 32; i++)
        seen |= frame->x[i];
    print_word("the module is stopped, with these bits in its registers: ", seen);
    stopped_at = READ_CSR(sepc);
    WRITE_CSR(sie, 0);
    frame->x[SP] = (u64)attempts_stack + sizeof attempts_stack;
    WRITE_CSR(sepc, try_all);
}

void handle_trap(struct frame *frame)
{
    u64 cause = READ_CSR(scause);
    if (cause == TIMER_INTERRUPT) {
        leave_module(frame);
    } else if (is_trying && (cause == FETCH_ACCESS_FAULT || cause == LOAD_ACCESS_FAULT
                             || cause == STORE_ACCESS_FAULT)) {
        pass_over(frame);
    } else {
        print_text("unexpected trap\n");
        shut_down();
    }
}

void run(void)
{
    module = launch_module(&segment);
    print_answer("launch: ", module);
    WRITE_CSR(sscratch, handler_stack + sizeof handler_stack);
    WRITE_CSR(stvec, trap_from_process);
    set_timer(READ_CSR(time) + PERIOD);
    WRITE_CSR(sie, TIMER_BIT);
    WRITE_CSR(sstatus, SIE);
    print_answer("the module is done: ", ask(module, (u64)make_secret_entry));
    print_word("what it tells of its secret: ", ask(module, (u64)fingerprint_entry));
    print_answer("evict it: ", evict_module(module));
    print_word("what is left of the secret: ", secret[0]);
}
