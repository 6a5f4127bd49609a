# Flags of a leaf, and of the entries that lead to it, changed byte by byte: the next load, fetch
# and store are judged by what stands there now, and by what stood there before when it is put back.
# ram 64
#= 0 ace
# V, R, W, X, A, D taken away, U and G given; no flag, X alone, R alone, V alone
#= 0 NMP ace NMP ace acP ace aMe ace NMP ace acP ace NMP ace ace ace
#= 0 NMP ace NcP ace aMP ace NMP ace
# bits 8, 62, 63 and 54; a page beyond RAM
#= 0 ace ace NMP ace NMP ace NMP ace FBH ace
# a pointer without V, with A, D, U, G, and one that became a leaf, which is misaligned
#= 0 NMP ace NMP ace NMP ace NMP ace ace ace NMP ace
#= 0 NMP ace NMP ace NMP ace NMP ace ace ace NMP ace
# a table beyond RAM
#= 0 FBH ace FBH ace
    .include "held.inc"
    # a byte of the entry at x6, and how it was
    .macro byte_there_and_back offset, there, back
    li x7, \there
    sb x7, \offset(x6)
    accesses
    li x7, \back
    sb x7, \offset(x6)
    accesses
    .endm
_start:
    trap_to trapped
    set_tables
    set_contents
    virtual_page
    paging
    accesses
    entry_at x6, LOW, LOW_INDEX
    .irp flags, 0xce, 0xcd, 0xcb, 0xc7, 0x8f, 0x4f, 0xdf, 0xef, 0, 0xc9, 0xc3, 1
    byte_there_and_back 0, \flags, RWX
    .endr
    byte_there_and_back 1, 4 * FIRST + 1, 4 * FIRST
    byte_there_and_back 7, 0x40, 0
    byte_there_and_back 7, 0x80, 0
    byte_there_and_back 6, 0x40, 0
    byte_there_and_back 6, 0x01, 0
    entry_at x6, MIDDLE, MIDDLE_INDEX
    .irp flags, 0, 0x41, 0x81, 0x11, 0x21, 0xcf
    byte_there_and_back 0, \flags, TABLE
    .endr
    entry_at x6, ROOT, ROOT_INDEX
    .irp flags, 0, 0x41, 0x81, 0x11, 0x21, 0xcf
    byte_there_and_back 0, \flags, TABLE
    .endr
    byte_there_and_back 3, 0x10, 0x20
    entry_at x6, MIDDLE, MIDDLE_INDEX
    byte_there_and_back 3, 0x10, 0x20
    jal x0, end
    .include "ends.inc"
    .include "held_traps.inc"
