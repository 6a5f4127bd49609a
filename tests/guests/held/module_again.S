# A module's page is read by the kernel, then by a module, then by the kernel, and then by other
# modules of the same text: the first is evicted and its page written again, and then the address
# leads to another page. Each finds what is its own.
# ram 64
#= 0 a xa F . a xa F . b xb F .
#: launch N 0 1 I
#: call N 0 0 1 0000000040606000
#: ret N 0 1 0 P
#: evict N 0 1 1
#: launch N 0 2 I
#: call N 0 0 2 0000000040606000
#: ret N 0 2 0 P
#: evict N 0 2 1
#: launch N 0 3 I
#: call N 0 0 3 0000000040606000
#: ret N 0 3 0 P
#: evict N 0 3 1
    .include "held.inc"
    .equ CODE, 26
    # the kernel loads, a module is launched and answers its letter, the kernel is denied, the
    # module is evicted, and the kernel loads zeros
    .macro life
    loads
    copy_code module, CODE, 2
    lla x7, text
    b.launch x18, x7
    addi x10, x0, 'x'
    write
    addi x10, x8, 0
    lui x9, 1
    add x9, x9, x8
    b.call x5, x18, x9
    write
    loads
    b.evict x5, x18
    loads
    .endm
_start:
    trap_to trapped
    set_tables
    entry LOW, LOW_INDEX + 1, CODE, RWX
    virtual_page
    paging
    set_contents
    life
    set_contents
    life
    entry LOW, LOW_INDEX, SECOND, RWX
    life
    jal x0, end
module:
    lbu x10, 0(x10)
    b.ret
    .include "ends.inc"
    .include "held_traps.inc"
    .include "held_text.inc"
