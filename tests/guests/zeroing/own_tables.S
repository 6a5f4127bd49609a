# The kernel's root leads on to a page of a module, which has what would be a good leaf. Loads by
# that table trap, and none is denied, whatever is in the page.
# ram 32
#: launch 9 0 1 I
#: trap 16 0 0000000000000005 P
#: trap N 0 0000000000000007 P
#: trap N 0 0000000000000001 0000000040000000
# zeroed 1@10 keeps all
# zeroed 1@16 keeps all
    .include "secure.inc"
    .include "paging.inc"
_start:
    trap_to handler
    lla x8, text
    paging
    b.launch x5, x8
    expect x5, 1
    lui x6, 0x40000
    behind by_load
    ld x7, 0(x6)
    jal x0, wrong
by_load:
    behind by_store
    sd x0, 0(x6)
    jal x0, wrong
by_store:
    behind by_fetch
    jalr x0, 0(x6)
by_fetch:
    jal x0, end
handler:
    go_behind
    .include "ends.inc"
    .org 1024
satp_value:
    .dword 0x8000000000080001
    .org 0x1000 + 8 * 1
    # the table is page 17
    leaf 17, 1
    .org 0x1000 + 8 * 2
    # 1 GiB, RAM and what is behind it
    leaf 0, RWX
    .include "module_text.inc"
    .org 0x10000
    b.ret
    .org 0x11000
    # 2 MiB
    leaf 0, RWX
