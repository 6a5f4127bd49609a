# The entry of timer_module.c; counter_entries_module.S says more on entries.

#include "secure.h"

        .equ    STACK, 1024

        .text
        .balign 4
        .globl  add_up_entry
add_up_entry:
        la      sp, module_stack_top
        call    add_up
        li      a1, 0
        b.ret

        .bss
        .balign 16
        .zero   STACK
module_stack_top:
