# The entry of sealed_module.c; counter_entries_module.S says more on entries.

#include "secure.h"

        .equ    STACK, 1024

        .text
        .balign 4
        .globl  count_up_entry
count_up_entry:
        la      sp, module_stack_top
        call    count_up
        li      a1, 0
        b.ret

        .bss
        .balign 16
        .zero   STACK
module_stack_top:
