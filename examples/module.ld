/* Lays a kernel out like guest.ld, with a page of code and a page of data for a module in between:
   what is compiled from files whose names end in _module.c or _module.S. The text of its segment
   names the pages by module_code_page and module_data_page, whose values are numbers of pages, and
   no addresses. */
OUTPUT_ARCH(riscv)
ENTRY(_start)

SECTIONS
{
    . = 0x80000000;
    .text : { *(.text.start) *(EXCLUDE_FILE(*_module.o) .text EXCLUDE_FILE(*_module.o) .text.*) }
    .rodata : { *(EXCLUDE_FILE(*_module.o) .rodata* EXCLUDE_FILE(*_module.o) .srodata*) }
    .data : { *(EXCLUDE_FILE(*_module.o) .data* EXCLUDE_FILE(*_module.o) .sdata*) }
    .module_code : ALIGN(4096) { *_module.o(.text* .rodata* .srodata*) . = ALIGN(4096); }
    .module_data : ALIGN(4096) { *_module.o(.data* .sdata* .bss* .sbss*) . = ALIGN(4096); }
    ASSERT(SIZEOF(.module_code) == 4096, "the module's code takes a page")
    ASSERT(SIZEOF(.module_data) == 4096, "the module's data take a page")
    module_code_page = ADDR(.module_code) / 4096;
    module_data_page = ADDR(.module_data) / 4096;
    .bss : { *(.bss .bss.* .sbss .sbss.* COMMON) }
    . = ALIGN(16);
    . += 4096;
    stack_top = .;
    /DISCARD/ : { *(.comment) *(.note .note.*) *(.eh_frame*) *(.riscv.attributes) }
}
