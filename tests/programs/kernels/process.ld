/* Lays the kernel out like guest.ld, with whole pages for the process behind it, which is linked
   for its own virtual addresses. The files of the kernel have names that begin with kernel_. */
OUTPUT_ARCH(riscv)
ENTRY(_start)

SECTIONS
{
    . = 0x80000000;
    .text : { *kernel_*.o(.text.start) *kernel_*.o(.text .text.*) }
    .rodata : { *kernel_*.o(.rodata .rodata.* .srodata .srodata.*) }
    .data : { *kernel_*.o(.data .data.* .sdata .sdata.*) }
    process_code = ALIGN(4096);
    .process_code 0x40000000 : AT(process_code)
    {
        *(.text.begin)
        *(EXCLUDE_FILE(*kernel_*.o) .text EXCLUDE_FILE(*kernel_*.o) .text.*)
        *(EXCLUDE_FILE(*kernel_*.o) .rodata EXCLUDE_FILE(*kernel_*.o) .rodata.*)
        *(EXCLUDE_FILE(*kernel_*.o) .srodata EXCLUDE_FILE(*kernel_*.o) .srodata.*)
    }
    process_data = process_code + (SIZEOF(.process_code) + 4095) / 4096 * 4096;
    .process_data ALIGN(4096) : AT(process_data)
    {
        *(EXCLUDE_FILE(*kernel_*.o) .data EXCLUDE_FILE(*kernel_*.o) .data.*)
        *(EXCLUDE_FILE(*kernel_*.o) .sdata EXCLUDE_FILE(*kernel_*.o) .sdata.*)
    }
    process_end = process_data + (SIZEOF(.process_data) + 4095) / 4096 * 4096;
    /* the last page of the image may have the first of these, which are zero in RAM there */
    .process_bss (NOLOAD) :
    {
        *(EXCLUDE_FILE(*kernel_*.o) .bss EXCLUDE_FILE(*kernel_*.o) .bss.*)
        *(EXCLUDE_FILE(*kernel_*.o) .sbss EXCLUDE_FILE(*kernel_*.o) .sbss.*)
        *(EXCLUDE_FILE(*kernel_*.o) COMMON)
    }
    .bss process_end : AT(process_end) { *kernel_*.o(.bss .bss.* .sbss .sbss.* COMMON) }
    . = ALIGN(16);
    . += 4096;
    stack_top = .;
    /DISCARD/ : { *(.comment) *(.note .note.*) *(.eh_frame*) *(.riscv.attributes) }
}
