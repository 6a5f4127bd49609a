# The entries of mailbox_receiver_module.c; counter_entries_module.S says more on entries.

#include "secure.h"

        .equ    STACK, 1024

        .text
        .balign 4
        .globl  receive_entry
receive_entry:                          # answers in a0 and a1
        la      sp, module_stack_top
        call    receive
        b.ret

        .globl  peek_entry
peek_entry:
        la      sp, module_stack_top
        call    peek
        li      a1, 0
        b.ret

        .bss
        .balign 16
        .zero   STACK
module_stack_top:
