/* Lays a kernel out like module.ld, with two pages for a process besides: its code, which is what
   is compiled from files whose names end in _process.c, and its data with its stack. */
OUTPUT_ARCH(riscv)
ENTRY(_start)

SECTIONS
{
    . = 0x80000000;
    image_begin = .;
    .text : { *(.text.start) EXCLUDE_FILE(*_process.o *_module.o) *(.text .text.*) }
    .rodata : { EXCLUDE_FILE(*_process.o *_module.o) *(.rodata* .srodata*) }
    .data : { EXCLUDE_FILE(*_process.o *_module.o) *(.data* .sdata*) }
    .process_code : ALIGN(4096) { *_process.o(.text* .rodata* .srodata*) . = ALIGN(4096); }
    .process_data : ALIGN(4096) {
        *_process.o(.data* .sdata* .bss* .sbss*)
        . += 1024;
        . = ALIGN(4096);
    }
    .module_code : ALIGN(4096) { *_module.o(.text* .rodata* .srodata*) . = ALIGN(4096); }
    .module_data : ALIGN(4096) { *_module.o(.data* .sdata* .bss* .sbss*) . = ALIGN(4096); }
    ASSERT(SIZEOF(.process_code) == 4096, "the process's code takes a page")
    ASSERT(SIZEOF(.process_data) == 4096, "the process's data and its stack take a page")
    ASSERT(SIZEOF(.module_code) == 4096, "the module's code takes a page")
    ASSERT(SIZEOF(.module_data) == 4096, "the module's data take a page")
    process_code = ADDR(.process_code);
    process_data = ADDR(.process_data);
    module_code = ADDR(.module_code);
    module_data = ADDR(.module_data);
    module_code_page = module_code / 4096;
    module_data_page = module_data / 4096;
    .bss : { *(.bss .bss.* .sbss .sbss.* COMMON) }
    . = ALIGN(16);
    . += 4096;
    stack_top = .;
    ASSERT(stack_top <= image_begin + 40 * 4096, "all has 40 pages at most")
    /DISCARD/ : { *(.comment) *(.note .note.*) *(.eh_frame*) *(.riscv.attributes) }
}
