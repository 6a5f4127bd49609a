/* A kernel that translates addresses (Sv39). It lies in one page of 2 MiB that mode U can't reach, and
   runs process.c in mode U in pages of 4 KiB, of which none is there at first. Each comes with the page
   fault of its first use: code and data are pages of the image, heap and stack are new and zero. Data can
   only be loaded until the first store, which gets a copy. When the process exits the kernel tells how
   many faults it served, and shuts down. */

#include "paging.h"
#include "template/guest.h"

struct page {
    u64 words[PAGE_BYTES / 8];
} __attribute__((aligned(PAGE_BYTES)));

enum { CALL_FROM_MODE_U = 8, FETCH_PAGE_FAULT = 12, LOAD_PAGE_FAULT = 13, STORE_PAGE_FAULT = 15 };

/* Bits of a table's entry. The machine sets neither ACCESSED nor DIRTY: where one that it wants is clear,
   it takes a page fault. It ignores COPIED_ON_STORE, which is this kernel's own. */
enum {
    VALID = 1 << 0,
    READ = 1 << 1,
    WRITE = 1 << 2,
    EXECUTE = 1 << 3,
    USER = 1 << 4,
    ACCESSED = 1 << 6,
    DIRTY = 1 << 7,
    COPIED_ON_STORE = 1 << 8,
};
enum { ENTRY_PAGE_SHIFT = 10, PAGE_SHIFT = 12, LEVEL_BITS = 9 };

static const u64 SV39 = 8ul << 60;
static const u64 KERNEL = 0x80000000;

void enter_process(u64 pc, u64 stack) __attribute__((noreturn));
void trap_from_process(void);

/* The pages of the image that have the process's code and data. */
extern struct page process_code, process_data;

static struct page root, kernel_middle, process_middle, process_low;
static struct page frames[8];
static u64 frames_taken;
static u64 pages_placed;
static u64 pages_copied;

static void __attribute__((noreturn)) stop(const char *why)
{
    print_text("kernel: ");
    print_text(why);
    print_text("\n");
    shut_down();
}

static u64 page_number(const void *place)
{
    return (u64)place >> PAGE_SHIFT;
}

static u64 entry_of(const void *place, u64 bits)
{
    return page_number(place) << ENTRY_PAGE_SHIFT | bits | VALID;
}

/* The index of an address in a table of a level: 2 is the root's. */
static u64 index_at(u64 level, u64 address)
{
    return address >> (PAGE_SHIFT + level * LEVEL_BITS) & 511;
}

/* The entry of a table has VALID alone, and the leaf of the kernel's 2 MiB no USER. */
static void make_tables(void)
{
    root.words[index_at(2, KERNEL)] = entry_of(&kernel_middle, 0);
    kernel_middle.words[index_at(1, KERNEL)] =
        entry_of((void *)KERNEL, READ | WRITE | EXECUTE | ACCESSED | DIRTY);
    root.words[0] = entry_of(&process_middle, 0);
    process_middle.words[0] = entry_of(&process_low, 0);
}

/* This machine looks at the tables in each access, and SFENCE.VMA does nothing. Others need it. */
static void tables_changed(void)
{
    asm volatile("sfence.vma" : : : "memory");
}

/* What the image doesn't hold is zero, and no frame is given twice: a new one is zero. */
static struct page *new_frame(void)
{
    if (frames_taken == sizeof frames / sizeof frames[0])
        stop("no frame is left");
    return &frames[frames_taken++];
}

static u64 first_entry(u64 page)
{
    if (page == CODE_PAGE)
        return entry_of(&process_code, READ | EXECUTE | USER | ACCESSED);
    if (page == DATA_PAGE)
        return entry_of(&process_data, READ | USER | ACCESSED | COPIED_ON_STORE);
    if ((page >= HEAP_PAGE && page < HEAP_PAGE + HEAP_PAGES) || page == STACK_PAGE)
        return entry_of(new_frame(), READ | WRITE | USER | ACCESSED | DIRTY);
    stop("the process has no such page");
}

static u64 copied_entry(u64 entry)
{
    const struct page *from = (const struct page *)(entry >> ENTRY_PAGE_SHIFT << PAGE_SHIFT);
    struct page *to = new_frame();
    for (int i = 0; i < PAGE_BYTES / 8; i++)
        to->words[i] = from->words[i];
    return entry_of(to, READ | WRITE | USER | ACCESSED | DIRTY);
}

static void serve_page_fault(u64 address, int is_store)
{
    u64 page = address >> PAGE_SHIFT;
    if (page >= PAGE_BYTES / 8)
        stop("the process left its 2 MiB");
    u64 *entry = &process_low.words[page];
    if (*entry == 0) {
        *entry = first_entry(page);
        pages_placed++;
    } else if (is_store && (*entry & COPIED_ON_STORE)) {
        *entry = copied_entry(*entry);
        pages_copied++;
    } else {
        stop("the process may not do that");
    }
    tables_changed();
}

static void __attribute__((noreturn)) report(void)
{
    print_text("kernel: ");
    print_byte('0' + pages_placed);
    print_text(" pages placed, ");
    print_byte('0' + pages_copied);
    print_text(" copied; the image has: ");
    print_text((const char *)&process_data);
    shut_down();
}

static void serve_call(u64 number, u64 argument)
{
    if (number == EXIT)
        report();
    if (number != PRINT_BYTE)
        stop("there is no such call");
    print_byte(argument);
    WRITE_CSR(sepc, READ_CSR(sepc) + 4);
}

void handle_trap(struct frame *frame)
{
    u64 cause = READ_CSR(scause);
    switch (cause) {
    case CALL_FROM_MODE_U:
        serve_call(frame->x[17], frame->x[10]);
        break;
    case FETCH_PAGE_FAULT:
    case LOAD_PAGE_FAULT:
    case STORE_PAGE_FAULT:
        serve_page_fault(READ_CSR(stval), cause == STORE_PAGE_FAULT);
        break;
    default:
        stop("unexpected trap");
    }
}

/* The kernel's addresses lead to themselves, so the instruction behind the write of satp is there. */
void run(void)
{
    make_tables();
    WRITE_CSR(satp, SV39 | page_number(&root));
    tables_changed();
    WRITE_CSR(stvec, trap_from_process);
    enter_process(CODE_PAGE * PAGE_BYTES, (STACK_PAGE + 1) * PAGE_BYTES);
}
