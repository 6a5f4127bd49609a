/* A kernel that translates addresses (Sv39) and launches the module of sealed_module.c, which keeps
   a count for ever. It runs sealed_process.c in mode U, which calls the module, of mode U too, for
   each key that waits. A timer interrupts process and module, each 1,000 events. */

#include "sealed.h"
#include "secure.h"
#include "template/guest.h"

enum { SET_TIMER = 0, CONSOLE_GETCHAR = 2 };
enum { CALL_FROM_MODE_U = 8, TIMER_BIT = 1 << 5, PERIOD = 1000 };
#define TIMER_INTERRUPT ((1ul << 63) + 5)

/* Bits of a table's entry. */
enum {
    VALID = 1 << 0,
    READ = 1 << 1,
    WRITE = 1 << 2,
    EXECUTE = 1 << 3,
    USER = 1 << 4,
    ACCESSED = 1 << 6,
    DIRTY = 1 << 7,
};
enum { ENTRY_PAGE_SHIFT = 10, PAGE_SHIFT = 12, GIGABYTE_SHIFT = 30 };
enum { PAGE_BYTES = 1 << PAGE_SHIFT, ENTRIES = 512 };

static const u64 SV39 = 8ul << 60;

struct table {
    u64 entries[ENTRIES];
} __attribute__((aligned(PAGE_BYTES)));

static struct table root, middle, low;

/* Of sealed.ld: where all that is in the image begins, and where it and the stack end; the pages of
   process and module; the numbers of the module's pages. */
extern char image_begin[], stack_top[];
extern char process_code[], process_data[], module_code[], module_data[];
extern const char module_code_page[], module_data_page[];

/* Of sealed_process.c. */
void begin(void);

/* Of sealed_entries_module.S: an address to call the module at, and no function of C. */
void count_up_entry(void);

/* Of mode_u.S. */
void enter_process(u64 pc, u64 stack) __attribute__((noreturn));
void trap_from_process(void);

const SEGMENT_TEXT segment = {
    .magic = SEGMENT_MAGIC,
    .version = SEGMENT_VERSION,
    .mode = SEGMENT_MODE_U,
    .entry_count = 1,
    .page_count = 2,
    .entries = { (u64)count_up_entry },
    .pages = {
        { .virtual_page = (u64)module_code_page,
          .sort = SEGMENT_PRIVATE, .rights = SEGMENT_LOAD | SEGMENT_FETCH },
        { .virtual_page = (u64)module_data_page,
          .sort = SEGMENT_PRIVATE, .rights = SEGMENT_LOAD | SEGMENT_STORE },
    },
};

static long module;
static u64 timer;

static u64 ask_hypervisor(u64 number, u64 argument)
{
    register u64 a0 asm("a0") = argument;
    register u64 a7 asm("a7") = number;
    asm volatile("ecall" : "+r"(a0) : "r"(a7) : "a1", "memory");
    return a0;
}

static void __attribute__((noreturn)) stop(const char *why)
{
    print_text("kernel: ");
    print_text(why);
    print_text("\n");
    shut_down();
}

static u64 page_number(const void *place)
{
    return (u64)place >> PAGE_SHIFT;
}

static u64 entry_of(const void *place, u64 bits)
{
    return page_number(place) << ENTRY_PAGE_SHIFT | bits | VALID;
}

/* A page leads to itself. */
static void map(const void *page, u64 bits)
{
    low.entries[page_number(page) % ENTRIES] = entry_of(page, bits | ACCESSED | DIRTY);
}

/* The module's pages are the process's as far as leaves can tell: both are of mode U. That the
   process doesn't reach them isn't a matter of leaves. */
static void make_tables(void)
{
    root.entries[(u64)image_begin >> GIGABYTE_SHIFT] = entry_of(&middle, 0);
    middle.entries[0] = entry_of(&low, 0);
    for (const char *page = image_begin; page < stack_top; page += PAGE_BYTES)
        map(page, READ | WRITE | EXECUTE);
    map(process_code, READ | EXECUTE | USER);
    map(process_data, READ | WRITE | USER);
    map(module_code, READ | EXECUTE | USER);
    map(module_data, READ | WRITE | USER);
    WRITE_CSR(satp, SV39 | page_number(&root));
    asm volatile("sfence.vma" : : : "memory");
}

static u64 serve_call(u64 number, u64 argument)
{
    switch (number) {
    case MODULE_ID:
        return module;
    case NEXT_KEY:
        return ask_hypervisor(CONSOLE_GETCHAR, 0);
    case PRINT_BYTE:
        print_byte(argument);
        return 0;
    case EXIT:
        shut_down();
    default:
        stop("there is no such call");
    }
}

static void set_timer(void)
{
    timer += PERIOD;
    ask_hypervisor(SET_TIMER, timer);
}

/* SRET goes back to sepc, to the process or to the module that was stopped. */
void handle_trap(struct frame *frame)
{
    switch (READ_CSR(scause)) {
    case TIMER_INTERRUPT:
        set_timer();
        break;
    case CALL_FROM_MODE_U:
        frame->x[10] = serve_call(frame->x[17], frame->x[10]);
        WRITE_CSR(sepc, READ_CSR(sepc) + 4);
        break;
    default:
        stop("unexpected trap");
    }
}

/* In mode U interrupts are on wherever sie has their bits. */
void run(void)
{
    make_tables();
    module = launch_module(&segment);
    if (module < 0)
        stop("the module isn't launched");
    WRITE_CSR(stvec, trap_from_process);
    WRITE_CSR(sie, TIMER_BIT);
    set_timer();
    enter_process((u64)begin, (u64)process_data + PAGE_BYTES);
}
