# Two roots, and Bare, take turns: an access is made by the satp of its turn, whatever its ASID, and
# by the tables as they are then, also where they were changed while another root was in satp.
# ram 64
#= 0 ace bdf ace bdf ace
# by the same root with another ASID, and by the other root with that one
#= 0 ace bdf ace
# changed while the other root is there, and back
#= 0 bdf ace
# Bare, where the page isn't RAM
#= 0 FBH ace
# a MODE that there isn't
#= 0 ace
# pages of RAM's own addresses, which a third root exchanges
#= 0 ac bd ac bd
    .include "held.inc"
    .equ OTHER_ROOT, 19
    .equ THIRD_ROOT, 22
    .equ THIRD_MIDDLE, 23
    .equ THIRD_LOW, 26
_start:
    trap_to trapped
    set_tables
    entry OTHER_ROOT, 2, 0, RWX
    entry OTHER_ROOT, ROOT_INDEX, OTHER_MIDDLE, TABLE
    set_contents
    virtual_page
    paging
    accesses
    .rept 2
    paging OTHER_ROOT
    accesses
    paging ROOT
    accesses
    .endr
    paging ROOT, 7
    accesses
    paging OTHER_ROOT, 7
    accesses
    paging ROOT, 7
    accesses
    paging OTHER_ROOT, 7
    entry LOW, LOW_INDEX, SECOND, RWX
    paging ROOT, 7
    accesses
    paging OTHER_ROOT
    entry LOW, LOW_INDEX, FIRST, RWX
    paging ROOT, 7
    accesses
    csrrw x0, satp, x0
    accesses
    paging
    accesses
    li x6, 0x9000000000080000 + OTHER_ROOT
    csrrw x0, satp, x6
    accesses
    csrrw x0, satp, x0
    # the first 32 pages lead to themselves, but for two
    entry THIRD_ROOT, 2, THIRD_MIDDLE, TABLE
    entry THIRD_MIDDLE, 0, THIRD_LOW, TABLE
    entry THIRD_LOW, 0, 0, RWX
    addi x5, x0, 31
1:  ld x7, 0(x6)
    addi x7, x7, 0x400
    addi x6, x6, 8
    sd x7, 0(x6)
    addi x5, x5, -1
    bne x5, x0, 1b
    entry THIRD_LOW, FIRST, SECOND, RWX
    entry THIRD_LOW, SECOND, FIRST, RWX
    lla x8, _start + 0x1000 * FIRST
    .rept 2
    loads
    calls
    paging THIRD_ROOT
    loads
    calls
    csrrw x0, satp, x0
    .endr
    jal x0, end
    .include "ends.inc"
    .include "held_traps.inc"
