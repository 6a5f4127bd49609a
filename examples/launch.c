/* A kernel that launches a module. It reads the module's secret before, launches the module, is
   refused a second launch, since the pages are a module's by then, and reads the secret again. That
   load is denied: it traps, and the handler shuts down. */

#include "secure.h"
#include "template/guest.h"

enum { LOAD_ACCESS_FAULT = 5 };

/* Of launch_module.c. */
extern const char secret[];
void module_entry(void);

/* Of module.ld: the numbers of the module's pages. */
extern const char module_code_page[], module_data_page[];

const SEGMENT_TEXT segment = {
    .magic = SEGMENT_MAGIC,
    .version = SEGMENT_VERSION,
    .mode = SEGMENT_MODE_S,
    .entry_count = 1,
    .page_count = 2,
    .entries = { (u64)module_entry },
    .pages = {
        { .virtual_page = (u64)module_code_page,
          .sort = SEGMENT_PRIVATE, .rights = SEGMENT_LOAD | SEGMENT_FETCH },
        { .virtual_page = (u64)module_data_page,
          .sort = SEGMENT_PRIVATE, .rights = SEGMENT_LOAD | SEGMENT_STORE },
    },
};

void handle_trap(struct frame *frame)
{
    (void)frame;
    int is_denied = READ_CSR(scause) == LOAD_ACCESS_FAULT && READ_CSR(stval) == (u64)secret;
    print_text(is_denied ? "denied\n" : "unexpected trap\n");
    shut_down();
}

/* An id or a refusal of one digit. */
static void print_answer(long answer)
{
    if (answer < 0)
        print_byte('-');
    print_byte('0' + (answer < 0 ? -answer : answer));
    print_text("\n");
}

void run(void)
{
    print_text("the kernel reads: ");
    print_text(secret);
    print_text("launch: ");
    print_answer(launch_module(&segment));
    print_text("again: ");
    print_answer(launch_module(&segment));
    print_text("the kernel reads: ");
    print_text(secret);
}
