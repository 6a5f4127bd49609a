/* Lays paging.c out like guest.ld, with two whole pages for process.c in between. The process's code and
   data are linked for its own virtual addresses, which paging.h names too. */
OUTPUT_ARCH(riscv)
ENTRY(_start)

SECTIONS
{
    . = 0x80000000;
    .text : { *(.text.start) *(EXCLUDE_FILE(process.o) .text EXCLUDE_FILE(process.o) .text.*) }
    .rodata : { *(EXCLUDE_FILE(process.o) .rodata* EXCLUDE_FILE(process.o) .srodata*) }
    .data : { *(EXCLUDE_FILE(process.o) .data* EXCLUDE_FILE(process.o) .sdata*) }
    process_code = ALIGN(4096);
    .process_code 0x10000 : AT(process_code) { process.o(.text.begin) process.o(.text* .rodata* .srodata*) }
    process_data = process_code + 4096;
    .process_data 0x20000 : AT(process_data) { process.o(.data* .sdata* .bss* .sbss*) }
    ASSERT(SIZEOF(.process_code) <= 4096 && SIZEOF(.process_data) <= 4096, "the process has more than a page")
    .bss process_data + 4096 : AT(process_data + 4096) { *(.bss .bss.* .sbss .sbss.* COMMON) }
    . = ALIGN(16);
    . += 4096;
    stack_top = .;
    /DISCARD/ : { *(.comment) *(.note .note.*) *(.eh_frame*) *(.riscv.attributes) }
}
