# A module that declares the last table on the way to the code that launches it: nothing is fetched
# any more, and nothing denied.
# ram 32 steps 13
#: launch N 0 1 I
#: trap N 0 0000000000000001 0000000080000028
#: trap N 0 0000000000000001 0000000080001000
#: trap N 0 0000000000000001 0000000080001000
    .include "secure.inc"
    .include "paging.inc"
_start:
    trap_to _start + 0x1000
    paging
    lla x8, own
    b.launch x5, x8
    addi x5, x0, 0
    .org 1024
satp_value:
    .dword 0x8000000000080001
    .org 0x1000 + 8 * 2
    leaf 2, 1
    .org 0x2000
    leaf 3, 1
    .org 0x3000
    leaf 0, RWX
    leaf 1, RWX
    leaf 2, RWX
    leaf 3, RWX
    .org 0x3000 + 8 * 8
    leaf 8, RWX
    .org 0x3000 + 8 * 16
    leaf 16, RWX
    .org 0x8000
own:
    segment 1, 2, 0, 0x80010000
    page 0x80003, PRIVATE, 3
    page 0x80010, PRIVATE, 5
