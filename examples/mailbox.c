/* A kernel that launches two modules, a sender and a receiver, which share a page that the kernel
   can't read. It lets one write there and the other read, then evicts the sender, sees what is left
   of the page, and evicts the receiver. */

#include "secure.h"
#include "template/guest.h"

/* The receiver's identity is known when all is linked. The Makefile links once with zeros in its
   place, and then writes it to the header. */
#ifndef RECEIVER_IDENTITY
#include "mailbox_identity.h"
#endif

enum { LOAD_ACCESS_FAULT = 5 };
enum { PAGE_BYTES = 4096 };
enum { SP = 2 };

/* A leaf of 1 GiB to the beginning of RAM, with V, R, W, X, A and D. */
#define LEAF_OF_RAM (0x80000ul << 10 | 0xcf)
#define SV39 (8ul << 60)

/* Of mode_u.S: takes a trap on the stack that sscratch has, and returns from it by SRET. */
void trap_from_process(void);

/* Of mailbox_sender_entries_module.S and mailbox_receiver_entries_module.S: addresses to call the
   modules at, and no functions of C. */
void send_entry(void);
void receive_entry(void);
void peek_entry(void);

/* Of mailbox.ld: the mailbox, where the receiver has it, the numbers of pages, and the end of the
   kernel's stack. */
extern volatile char mailbox[], received_mailbox[];
extern const char sender_code_page[], sender_data_page[], mailbox_page[];
extern const char receiver_code_page[], receiver_data_page[], received_mailbox_page[];
extern char stack_top[];

const SEGMENT_TEXT sender_text = {
    .magic = SEGMENT_MAGIC,
    .version = SEGMENT_VERSION,
    .mode = SEGMENT_MODE_S,
    .entry_count = 1,
    .page_count = 3,
    .partner_count = 1,
    .entries = { (u64)send_entry },
    .pages = {
        { .virtual_page = (u64)sender_code_page,
          .sort = SEGMENT_PRIVATE, .rights = SEGMENT_LOAD | SEGMENT_FETCH },
        { .virtual_page = (u64)sender_data_page,
          .sort = SEGMENT_PRIVATE, .rights = SEGMENT_LOAD | SEGMENT_STORE },
        { .virtual_page = (u64)mailbox_page,
          .sort = SEGMENT_OFFER, .rights = SEGMENT_LOAD | SEGMENT_STORE, .mask = 1 << 0 },
    },
    .partners = { { RECEIVER_IDENTITY } },
};

const SEGMENT_TEXT receiver_text = {
    .magic = SEGMENT_MAGIC,
    .version = SEGMENT_VERSION,
    .mode = SEGMENT_MODE_S,
    .entry_count = 2,
    .page_count = 3,
    .entries = { (u64)receive_entry, (u64)peek_entry },
    .pages = {
        { .virtual_page = (u64)received_mailbox_page,
          .sort = SEGMENT_ACCEPT, .rights = SEGMENT_LOAD },
        { .virtual_page = (u64)receiver_code_page,
          .sort = SEGMENT_PRIVATE, .rights = SEGMENT_LOAD | SEGMENT_FETCH },
        { .virtual_page = (u64)receiver_data_page,
          .sort = SEGMENT_PRIVATE, .rights = SEGMENT_LOAD | SEGMENT_STORE },
    },
};

/* A module that would have the mailbox for itself. It is never called. */
const SEGMENT_TEXT taker_text = {
    .magic = SEGMENT_MAGIC,
    .version = SEGMENT_VERSION,
    .mode = SEGMENT_MODE_S,
    .entry_count = 1,
    .page_count = 1,
    .entries = { (u64)mailbox },
    .pages = {
        { .virtual_page = (u64)mailbox_page,
          .sort = SEGMENT_PRIVATE, .rights = SEGMENT_LOAD | SEGMENT_FETCH },
    },
};

static u64 root[PAGE_BYTES / sizeof(u64)] __attribute__((aligned(PAGE_BYTES)));

/* A stop leaves 0 in sp, and the kernel's own stack has what waits for the module. */
static char handler_stack[1024] __attribute__((aligned(16)));

static long receiver;

/* RAM at its own addresses, and once more from 0x40000000 on. */
static void map_ram_twice(void)
{
    root[1] = LEAF_OF_RAM;
    root[2] = LEAF_OF_RAM;
    WRITE_CSR(satp, SV39 | (u64)root / PAGE_BYTES);
}

/* A number or a refusal of one digit. */
static void print_answer(const char *what, long answer)
{
    print_text(what);
    if (answer < 0)
        print_byte('-');
    print_byte('0' + (answer < 0 ? -answer : answer));
    print_text("\n");
}

/* The bytes of a word of an identity, as a line `launch` has them. */
static void print_bytes(const char *what, u64 word)
{
    print_text(what);
    for (int i = 0; i < 8; i++, word >>= 8) {
        print_byte("0123456789abcdef"[word >> 4 & 15]);
        print_byte("0123456789abcdef"[word & 15]);
    }
    print_text("\n");
}

/* Lets the receiver read the mailbox, and tells its answer: -1 letters where nobody offers it. */
static void ask_receiver(void)
{
    u64 length = 0, from = 0;
    if (call_module(receiver, (u64)receive_entry, &length, &from) < 0)
        print_text("refused\n");
    print_answer("letters received: ", length);
    print_bytes("from: ", from);
}

/* The kernel goes on here after the receiver was stopped, with an empty stack. */
static void __attribute__((noreturn)) go_on(void)
{
    print_answer("launch with the mailbox: ", launch_module(&taker_text));
    print_answer("evict the receiver: ", evict_module(receiver));
    int used = 0;
    for (int i = 0; i < PAGE_BYTES; i++)
        used |= mailbox[i];
    print_text(used ? "the mailbox has something\n" : "the mailbox has zeros\n");
    print_answer("launch with the mailbox: ", launch_module(&taker_text));
    shut_down();
}

/* The kernel's own load is passed over. The receiver's leaves it stopped, and run, which called it,
   waits for ever: the kernel goes on elsewhere. Of a module's address the page alone is told, by
   its first byte. */
void handle_trap(struct frame *frame)
{
    u64 address = READ_CSR(stval);
    if (READ_CSR(scause) == LOAD_ACCESS_FAULT && address == (u64)mailbox) {
        print_text("denied\n");
        WRITE_CSR(sepc, READ_CSR(sepc) + 4);
    } else if (READ_CSR(scause) == LOAD_ACCESS_FAULT && address == (u64)received_mailbox) {
        print_text("denied, and the receiver is stopped\n");
        frame->x[SP] = (u64)stack_top;
        WRITE_CSR(sepc, go_on);
    } else {
        print_text("unexpected trap\n");
        shut_down();
    }
}

void run(void)
{
    u64 none = 0;
    map_ram_twice();
    WRITE_CSR(sscratch, handler_stack + sizeof handler_stack);
    WRITE_CSR(stvec, trap_from_process);
    print_answer("launch the receiver: ", launch_module(&receiver_text));
    long sender = launch_module(&sender_text);
    print_answer("launch the sender: ", sender);
    receiver = launch_module(&receiver_text);
    print_answer("launch the receiver: ", receiver);
    print_answer("call the sender: ", call_module(sender, (u64)send_entry, &none, &none));
    ask_receiver();
    print_text("the kernel reads: ");
    (void)mailbox[0];
    print_answer("evict the sender: ", evict_module(sender));
    ask_receiver();
    print_text("the receiver reads without asking: ");
    call_module(receiver, (u64)peek_entry, &none, &none);
}
