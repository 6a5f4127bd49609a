# A module that accepts a page is launched again over another page of its own with the same bytes:
# that is a duplicate, but first it is not offered where the accepted page isn't.
# ram 32
#: launch N 0 1 I
#: launch N 0 2 I
#: refuse N 0 launch -6
#: refuse N 0 launch -7
    .include "secure.inc"
    .include "paging.inc"
_start:
    paging
    lla x8, offers
    b.launch x5, x8
    expect x5, 1
    lla x8, accepts
    b.launch x5, x8
    expect x5, 2
    lla x9, leaves
    ld x6, 16(x9)
    ld x7, 24(x9)
    sd x6, 0(x9)
    ld x6, 8(x9)
    sd x7, 8(x9)
    b.launch x5, x8
    expect x5, -6
    sd x6, 8(x9)
    b.launch x5, x8
    expect x5, -7
    jal x0, end
    .include "ends.inc"
    .include "tables.inc"
    .org 0x3000 + 8 * 0x10
leaves:
    leaf 18, RWX
    leaf 20, RWX
    leaf 19, RWX
    leaf 21, RWX
    leaf 22, RWX
    .org 0x8000
offers:
    segment 1, 2, 1, 0x14000
    page 0x11, OFFER, 3, 1
    page 0x14, PRIVATE, 4
    partners 2
    # of `accepts`
    .dword 0xab2f9cb434a2107e, 0x342d906516308d9b, 0x81f53274ac04d50c, 0x33bf013a44259e23
    .org 0x8000 + 1232
accepts:
    segment 0, 2, 0, 0x10000
    page 0x10, PRIVATE, 7
    page 0x11, ACCEPT, 3
