/* The Sv39 tables of the kernels of this folder, which lead RAM to itself by leaves of 4 KiB. */

#ifndef TABLES_H
#define TABLES_H

#include "guest.h"

enum { PAGE_BYTES = 4096, PAGE_SHIFT = 12, ENTRIES = 512, LEVEL_BITS = 9, RAM_PAGES = 1024 };

/* Bits of an entry. */
enum {
    VALID = 1 << 0,
    READ = 1 << 1,
    WRITE = 1 << 2,
    EXECUTE = 1 << 3,
    USER = 1 << 4,
    ACCESSED = 1 << 6,
    DIRTY = 1 << 7,
};

struct page {
    u64 words[ENTRIES];
} __attribute__((aligned(PAGE_BYTES)));

extern struct page root;

u64 entry_of(const void *place, u64 bits);

/* The index of an address in a table of a level: 2 is the root's. */
u64 index_at(u64 level, u64 address);

/* Writes the entries for all of RAM, without USER. */
void map_ram(void);

/* Turns on the translation by these tables. */
void translate(void);

#endif
