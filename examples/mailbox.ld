/* Lays a kernel with two modules out like module.ld: a page of code and a page of data for each,
   and between them the mailbox, a page that the sender offers. The kernel leads 0x40000000 to RAM
   too, and there, at received_mailbox, the receiver has the mailbox. */
OUTPUT_ARCH(riscv)
ENTRY(_start)

SECTIONS
{
    . = 0x80000000;
    .text : { *(.text.start) *(EXCLUDE_FILE(*_module.o) .text EXCLUDE_FILE(*_module.o) .text.*) }
    .rodata : { *(EXCLUDE_FILE(*_module.o) .rodata* EXCLUDE_FILE(*_module.o) .srodata*) }
    .data : { *(EXCLUDE_FILE(*_module.o) .data* EXCLUDE_FILE(*_module.o) .sdata*) }
    .sender_code : ALIGN(4096) {
        *sender*_module.o(.text* .rodata* .srodata*)
        . = ALIGN(4096);
    }
    .sender_data : ALIGN(4096) {
        *sender*_module.o(.data* .sdata* .bss* .sbss*)
        . = ALIGN(4096);
    }
    .mailbox : ALIGN(4096) { mailbox = .; . += 4096; }
    .receiver_code : ALIGN(4096) {
        *receiver*_module.o(.text* .rodata* .srodata*)
        . = ALIGN(4096);
    }
    .receiver_data : ALIGN(4096) {
        *receiver*_module.o(.data* .sdata* .bss* .sbss*)
        . = ALIGN(4096);
    }
    ASSERT(SIZEOF(.sender_code) == 4096, "the sender's code takes a page")
    ASSERT(SIZEOF(.sender_data) == 4096, "the sender's data take a page")
    ASSERT(SIZEOF(.receiver_code) == 4096, "the receiver's code takes a page")
    ASSERT(SIZEOF(.receiver_data) == 4096, "the receiver's data take a page")
    received_mailbox = ADDR(.mailbox) - 0x40000000;
    sender_code_page = ADDR(.sender_code) / 4096;
    sender_data_page = ADDR(.sender_data) / 4096;
    mailbox_page = ADDR(.mailbox) / 4096;
    receiver_code_page = ADDR(.receiver_code) / 4096;
    receiver_data_page = ADDR(.receiver_data) / 4096;
    received_mailbox_page = (ADDR(.mailbox) - 0x40000000) / 4096;
    .bss : { *(.bss .bss.* .sbss .sbss.* COMMON) }
    . = ALIGN(16);
    . += 4096;
    stack_top = .;
    /DISCARD/ : { *(.comment) *(.note .note.*) *(.eh_frame*) *(.riscv.attributes) }
}
