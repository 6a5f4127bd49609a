#include "tables.h"

static const u64 SV39 = 8ul << 60;
static const u64 RAM = 0x80000000;

struct page root;
static struct page middle, low[RAM_PAGES / ENTRIES];

u64 entry_of(const void *place, u64 bits)
{
    return (u64)place >> PAGE_SHIFT << 10 | bits | VALID;
}

u64 index_at(u64 level, u64 address)
{
    return address >> (PAGE_SHIFT + level * LEVEL_BITS) & (ENTRIES - 1);
}

void map_ram(void)
{
    root.words[index_at(2, RAM)] = entry_of(&middle, 0);
    for (u64 table = 0; table < RAM_PAGES / ENTRIES; table++)
        middle.words[table] = entry_of(&low[table], 0);
    for (u64 page = 0; page < RAM_PAGES; page++)
        low[page / ENTRIES].words[page % ENTRIES] = entry_of(
            (void *)(RAM + page * PAGE_BYTES), READ | WRITE | EXECUTE | ACCESSED | DIRTY);
}

/* RAM's addresses lead to themselves, so the instruction behind the write of satp is there. */
void translate(void)
{
    WRITE_CSR(satp, SV39 | (u64)&root >> PAGE_SHIFT);
    asm volatile("sfence.vma" : : : "memory");
}
