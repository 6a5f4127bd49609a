/* The secure instructions, by names, for sources in C and in assembly, and the text of a segment,
   from which a module is launched. docs/guest.md says what each does. */

#ifndef SECURE_H
#define SECURE_H

#ifdef __ASSEMBLER__

/* The assembler knows no b.launch, so these macros spell the instructions of opcode custom-0 by
   their fields: funct3, funct7, rd, rs1, rs2. */
        .macro  b.launch rd, text
        .insn   r 0x0b, 0, 0, \rd, \text, x0
        .endm
        .macro  b.call rd, id, entry
        .insn   r 0x0b, 1, 0, \rd, \id, \entry
        .endm
        .macro  b.ret
        .insn   r 0x0b, 2, 0, x0, x0, x0
        .endm
        .macro  b.evict rd, id
        .insn   r 0x0b, 3, 0, \rd, \id, x0
        .endm
        .macro  b.ident rd, id, word
        .insn   r 0x0b, 4, 0, \rd, \id, \word
        .endm
        .macro  b.caller rd
        .insn   r 0x0b, 5, 0, \rd, x0, x0
        .endm
        .macro  b.offerer rd, address
        .insn   r 0x0b, 6, 0, \rd, \address, x0
        .endm
        .macro  b.sget rd, index
        .insn   r 0x0b, 7, 0, \rd, \index, x0
        .endm
        .macro  b.sset rd, index, value
        .insn   r 0x0b, 0, 1, \rd, \index, \value
        .endm

#else

/* ---- the text of a segment */

enum { SEGMENT_MODE_U = 0, SEGMENT_MODE_S = 1 };
enum { SEGMENT_PRIVATE = 1, SEGMENT_OFFER = 2, SEGMENT_ACCEPT = 3 };
enum { SEGMENT_LOAD = 1 << 0, SEGMENT_STORE = 1 << 1, SEGMENT_FETCH = 1 << 2 };
enum { SEGMENT_ENTRIES = 8, SEGMENT_PAGES = 64, SEGMENT_PARTNERS = 4 };

/* A page that the module declares. Virtual pages ascend. A private page's rights are LOAD, LOAD and
   STORE, FETCH, LOAD and FETCH, or all three, another's LOAD, or LOAD and STORE. Bit i of an
   offer's mask names partner i; other pages have the mask 0. */
struct segment_page {
    unsigned long virtual_page; /* the address without its low 12 bits, divided by 4,096 */
    unsigned char sort;
    unsigned char rights;
    unsigned char mask;
    unsigned char zeros[5];
};

/* What isn't used is zero. An entry is a multiple of 4 in a private page with FETCH. A partner is
   the identity of a module. */
struct segment {
    unsigned char magic[4];
    unsigned char version;
    unsigned char mode;
    unsigned char entry_count;
    unsigned char page_count;
    unsigned char partner_count;
    unsigned char zeros[7];
    unsigned long entries[SEGMENT_ENTRIES];
    struct segment_page pages[SEGMENT_PAGES];
    unsigned char partners[SEGMENT_PARTNERS][32];
};

#define SEGMENT_MAGIC { 'B', 'N', 'S', 'G' }
#define SEGMENT_VERSION 1

/* A text stands at a multiple of 8 and in one page, which each multiple of 2,048 gives it. */
#define SEGMENT_TEXT __attribute__((aligned(2048))) struct segment

_Static_assert(sizeof(struct segment_page) == 16, "a page takes 16 bytes of the text");
_Static_assert(__builtin_offsetof(struct segment_page, sort) == 8, "behind the virtual page");
_Static_assert(__builtin_offsetof(struct segment_page, zeros) == 11, "behind the mask");
_Static_assert(sizeof(struct segment) == 1232, "a text has 1,232 bytes");
_Static_assert(__builtin_offsetof(struct segment, mode) == 5, "behind magic and version");
_Static_assert(__builtin_offsetof(struct segment, partner_count) == 8, "the last of the numbers");
_Static_assert(__builtin_offsetof(struct segment, entries) == 16, "behind the head");
_Static_assert(__builtin_offsetof(struct segment, pages) == 80, "behind 8 entries");
_Static_assert(__builtin_offsetof(struct segment, partners) == 1104, "behind 64 pages");

/* ---- refusals: what an instruction answers in place of what it was asked for */

enum launch_refusal {
    LAUNCH_ADDRESS = -1,
    LAUNCH_UNMAPPED = -2,
    LAUNCH_NO_PAGE = -3,
    LAUNCH_OWNED = -4,
    LAUNCH_ALIAS = -5,
    LAUNCH_NOT_OFFERED = -6,
    LAUNCH_DUPLICATE = -7,
    LAUNCH_TABLE_FULL = -8,
    LAUNCH_IDS_SPENT = -9,
    LAUNCH_SEGMENT_MAGIC = -16,
    LAUNCH_SEGMENT_VERSION = -17,
    LAUNCH_SEGMENT_MODE = -18,
    LAUNCH_SEGMENT_ENTRIES = -19,
    LAUNCH_SEGMENT_PAGES = -20,
    LAUNCH_SEGMENT_ORDER = -21,
    LAUNCH_SEGMENT_SORT = -22,
    LAUNCH_SEGMENT_RIGHTS = -23,
    LAUNCH_SEGMENT_ENTRY_PLACE = -24,
    LAUNCH_SEGMENT_PARTNERS = -25,
    LAUNCH_SEGMENT_PADDING = -26,
};

enum call_refusal {
    CALL_NO_MODULE = -1,
    CALL_NOT_ENTRY = -2,
    CALL_MODE_DIFFERS = -3,
    CALL_BUSY = -4,
};
enum evict_refusal { EVICT_NO_MODULE = -1, EVICT_BUSY = -2 };
enum sset_refusal { SSET_BAD_INDEX = -1, SSET_FULL = -2 };

/* ---- b.launch and b.evict, of the kernel */

/* Gives the new module's id, or a refusal. */
static inline long launch_module(const struct segment *text)
{
    long id;
    asm volatile(".insn r 0x0b, 0, 0, %0, %1, x0" : "=r"(id) : "r"(text) : "memory");
    return id;
}

/* Gives 0, or a refusal. The module's private and offered pages are zero then, and free, but for
   those that a live module accepts. */
static inline long evict_module(unsigned long id)
{
    long refusal;
    asm volatile(".insn r 0x0b, 3, 0, %0, %1, x0" : "=r"(refusal) : "r"(id) : "memory");
    return refusal;
}

/* ---- b.call and b.ident, of all */

/* Calls a module at one of its entries, with a0 and a1, and with 0 in a2 to a7. Gives 0, and in a0
   and a1 what the module left there, or a refusal, and a0 and a1 as they were. */
static inline long call_module(unsigned long id, unsigned long entry, unsigned long *a0,
                               unsigned long *a1)
{
    register unsigned long first asm("a0") = *a0;
    register unsigned long second asm("a1") = *a1;
    register unsigned long third asm("a2") = 0;
    register unsigned long fourth asm("a3") = 0;
    register unsigned long fifth asm("a4") = 0;
    register unsigned long sixth asm("a5") = 0;
    register unsigned long seventh asm("a6") = 0;
    register unsigned long eighth asm("a7") = 0;
    long refusal;
    asm volatile(".insn r 0x0b, 1, 0, %0, %3, %4"
                 : "=r"(refusal), "+r"(first), "+r"(second)
                 : "r"(id), "r"(entry), "r"(third), "r"(fourth), "r"(fifth), "r"(sixth),
                   "r"(seventh), "r"(eighth)
                 : "memory");
    *a0 = first;
    *a1 = second;
    return refusal;
}

/* Word 0 to 3 of a live module's identity, whose bytes they are, little endian; 0 where there is
   none. */
static inline unsigned long identity_word(unsigned long id, unsigned long word)
{
    unsigned long value;
    asm volatile(".insn r 0x0b, 4, 0, %0, %1, %2" : "=r"(value) : "r"(id), "r"(word));
    return value;
}

/* ---- b.ret, b.caller, b.offerer, b.sget and b.sset, of modules */

/* a0 and a1 go to the caller as they are; its other registers are as they were when it called. */
static inline void __attribute__((noreturn))
return_to_caller(unsigned long a0, unsigned long a1)
{
    register unsigned long first asm("a0") = a0;
    register unsigned long second asm("a1") = a1;
    asm volatile(".insn r 0x0b, 2, 0, x0, x0, x0" : : "r"(first), "r"(second) : "memory");
    __builtin_unreachable();
}

/* The id of the module that called this one, or 0 where code outside the modules did. */
static inline unsigned long caller_id(void)
{
    unsigned long id;
    asm volatile(".insn r 0x0b, 5, 0, %0, x0, x0" : "=r"(id));
    return id;
}

/* The id of the live module that offers the page which this one accepts at this address, or 0. */
static inline unsigned long offerer_id(const void *address)
{
    unsigned long id;
    asm volatile(".insn r 0x0b, 6, 0, %0, %1, x0" : "=r"(id) : "r"(address));
    return id;
}

/* Word 0 to 31 that this identity keeps; 0 where there is none. */
static inline unsigned long stored_word(unsigned long index)
{
    unsigned long value;
    asm volatile(".insn r 0x0b, 7, 0, %0, %1, x0" : "=r"(value) : "r"(index));
    return value;
}

/* Gives 0, or a refusal. */
static inline long store_word(unsigned long index, unsigned long value)
{
    long refusal;
    asm volatile(".insn r 0x0b, 0, 1, %0, %1, %2" : "=r"(refusal) : "r"(index), "r"(value));
    return refusal;
}

#endif

#endif
