/* A kernel that launches the module of counter_module.c, and calls it. Each call counts. Then the
   kernel stores to the counter, which is denied, calls the module where it has no entry, which is
   refused, and asks for the count: it is as the module left it. */

#include "secure.h"
#include "template/guest.h"

enum { STORE_ACCESS_FAULT = 7 };

/* Of counter_module.c. */
extern volatile u64 counter;
unsigned long count_up(void);

/* Of counter_entries_module.S: addresses to call the module at, and no functions of C. */
void count_up_entry(void);
void read_count_entry(void);

/* Of module.ld: the numbers of the module's pages. */
extern const char module_code_page[], module_data_page[];

const SEGMENT_TEXT segment = {
    .magic = SEGMENT_MAGIC,
    .version = SEGMENT_VERSION,
    .mode = SEGMENT_MODE_S,
    .entry_count = 2,
    .page_count = 2,
    .entries = { (u64)count_up_entry, (u64)read_count_entry },
    .pages = {
        { .virtual_page = (u64)module_code_page,
          .sort = SEGMENT_PRIVATE, .rights = SEGMENT_LOAD | SEGMENT_FETCH },
        { .virtual_page = (u64)module_data_page,
          .sort = SEGMENT_PRIVATE, .rights = SEGMENT_LOAD | SEGMENT_STORE },
    },
};

/* The denied store is passed over. A trap while a module runs would leave 0 in sp, and no stack for
   start.S; this module doesn't trap, and this kernel has no interrupts. */
void handle_trap(struct frame *frame)
{
    (void)frame;
    if (READ_CSR(scause) != STORE_ACCESS_FAULT || READ_CSR(stval) != (u64)&counter) {
        print_text("unexpected trap\n");
        shut_down();
    }
    print_text("denied\n");
    WRITE_CSR(sepc, READ_CSR(sepc) + 4);
}

/* A number or a refusal of one digit. */
static void print_answer(const char *what, long answer)
{
    print_text(what);
    if (answer < 0)
        print_byte('-');
    print_byte('0' + (answer < 0 ? -answer : answer));
    print_text("\n");
}

/* What the module answers, or why it wasn't called. */
static long ask(long module, u64 entry)
{
    u64 answer = 0, none = 0;
    long refusal = call_module(module, entry, &answer, &none);
    return refusal < 0 ? refusal : (long)answer;
}

void run(void)
{
    long module = launch_module(&segment);
    print_answer("launch: ", module);
    for (int times = 0; times < 3; times++)
        print_answer("count: ", ask(module, (u64)count_up_entry));
    print_text("the kernel stores: ");
    counter = 0;
    print_answer("behind the entry: ", ask(module, (u64)count_up));
    print_answer("count: ", ask(module, (u64)read_count_entry));
}
