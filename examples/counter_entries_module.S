# The entries of counter_module.c. A module begins with 0 in all registers but a0 to a7, so an entry
# sets up the stack, which is in a page of the module's. It never returns by RET: b.ret leads back
# to the caller.

#include "secure.h"

        .equ    STACK, 1024

# b.ret gives the caller a0, which is the function's answer, and a1, where the function may have
# left anything of the module's. It gives nothing else away: the caller's other registers are as
# they were.
        .macro  entry name, function
        .balign 4
        .globl  \name
\name:
        la      sp, module_stack_top
        call    \function
        li      a1, 0
        b.ret
        .endm

        .text
        entry   count_up_entry, count_up
        entry   read_count_entry, read_count

        .bss
        .balign 16
        .zero   STACK
module_stack_top:
