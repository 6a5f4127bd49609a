# The same text over other pages with the same bytes is the same identity, and refused; with another
# byte in a page it is another.
# ram 32
#: launch N 0 1 I
#: refuse N 0 launch -7
#: launch N 0 2 I
    .include "secure.inc"
    .include "paging.inc"
_start:
    paging
    lla x8, other
    b.launch x5, x8
    expect x5, 1
    # the same virtual pages lead to pages 18 and 19 now
    lla x9, leaves
    ld x6, 16(x9)
    ld x7, 24(x9)
    sd x6, 0(x9)
    sd x7, 8(x9)
    b.launch x5, x8
    expect x5, -7
    lla x9, _start + 0x13fff
    addi x6, x0, 1
    sb x6, 0(x9)
    b.launch x5, x8
    expect x5, 2
    jal x0, end
    .include "ends.inc"
    .include "tables.inc"
    .org 0x3000 + 8 * 0x10
leaves:
    leaf 16, RWX
    leaf 17, RWX
    leaf 18, RWX
    leaf 19, RWX
    .org 0x9000
other:
    segment 1, 2, 0, 0x10000
    page 0x10, PRIVATE, 5
    page 0x11, PRIVATE, 3
    .org 0x11000
    .dword 0x1122334455667788
    .org 0x13000
    .dword 0x1122334455667788
