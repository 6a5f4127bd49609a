# The entries of secret_module.c; counter_entries_module.S says more on entries.

#include "secure.h"

        .equ    STACK, 1024

        .text
        .balign 4
        .globl  make_secret_entry
make_secret_entry:
        la      sp, module_stack_top
        call    make_secret
        li      a1, 0
        b.ret

        .globl  fingerprint_entry
fingerprint_entry:
        la      sp, module_stack_top
        call    fingerprint
        li      a1, 0
        b.ret

        .bss
        .balign 16
        .zero   STACK
module_stack_top:
