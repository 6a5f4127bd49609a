/* A kernel that runs a program of the folder above in mode U, at virtual addresses that process.ld
   links it for, far from where its pages lie. None of its pages is there at first. Each comes with
   the page fault of its first use: code and data are pages of the image, others are zero. */

#include "tables.h"
#include "process.h"

enum { CALL_FROM_MODE_U = 8, FETCH_PAGE_FAULT = 12, LOAD_PAGE_FAULT = 13, STORE_PAGE_FAULT = 15 };
enum { FRAMES = 160 };

void enter_process(u64 pc, u64 stack) __attribute__((noreturn));
void trap_from_process(void);

/* The pages of the image with the process's code and data, and their end. */
extern struct page process_code[], process_data[], process_end[];

static struct page process_middle, process_low;
static struct page frames[FRAMES];
static u64 frames_left = FRAMES;

static void __attribute__((noreturn)) stop(const char *why)
{
    print_text("kernel: ");
    print_text(why);
    print_text("\n");
    shut_down();
}

/* What the image doesn't hold is zero, and no frame is given twice. The last comes first, so that
   pages that follow each other lie in the other order. */
static struct page *new_frame(void)
{
    if (frames_left == 0)
        stop("no frame is left");
    return &frames[--frames_left];
}

static u64 first_entry(u64 page)
{
    u64 code_pages = (u64)(process_data - process_code);
    u64 image_pages = (u64)(process_end - process_code);
    if (page < code_pages)
        return entry_of(&process_code[page], READ | EXECUTE | USER | ACCESSED);
    if (page < image_pages)
        return entry_of(&process_code[page], READ | WRITE | USER | ACCESSED | DIRTY);
    return entry_of(new_frame(), READ | WRITE | USER | ACCESSED | DIRTY);
}

static void serve_page_fault(u64 address)
{
    u64 page = (address - PROCESS_BASE) / PAGE_BYTES;
    if (address < PROCESS_BASE || page >= PROCESS_PAGES)
        stop("the process left its pages");
    u64 *entry = &process_low.words[index_at(0, address)];
    if (*entry != 0)
        stop("the process may not do that");
    *entry = first_entry(page);
    asm volatile("sfence.vma" : : : "memory");
}

static void serve_call(u64 number, u64 argument)
{
    if (number == EXIT)
        shut_down();
    if (number != PRINT_BYTE)
        stop("there is no such call");
    print_byte(argument);
    WRITE_CSR(sepc, READ_CSR(sepc) + 4);
}

void handle_trap(struct frame *frame)
{
    switch (READ_CSR(scause)) {
    case CALL_FROM_MODE_U:
        serve_call(frame->x[17], frame->x[10]);
        break;
    case FETCH_PAGE_FAULT:
    case LOAD_PAGE_FAULT:
    case STORE_PAGE_FAULT:
        serve_page_fault(READ_CSR(stval));
        break;
    default:
        stop("unexpected trap");
    }
}

void run(void)
{
    map_ram();
    root.words[index_at(2, PROCESS_BASE)] = entry_of(&process_middle, 0);
    process_middle.words[index_at(1, PROCESS_BASE)] = entry_of(&process_low, 0);
    translate();
    WRITE_CSR(stvec, trap_from_process);
    enter_process(PROCESS_BASE, PROCESS_BASE + PROCESS_PAGES * PAGE_BYTES);
}
