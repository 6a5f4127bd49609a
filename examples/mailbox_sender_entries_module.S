# The entry of mailbox_sender_module.c; counter_entries_module.S says more on entries.

#include "secure.h"

        .equ    STACK, 1024

        .text
        .balign 4
        .globl  send_entry
send_entry:
        la      sp, module_stack_top
        call    send
        li      a0, 0
        li      a1, 0
        b.ret

        .bss
        .balign 16
        .zero   STACK
module_stack_top:
