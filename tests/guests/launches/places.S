# A declared page that is nowhere, outside RAM, at no address, or behind a table that a module owns.
# That is tested over all pages before any page's owners are.
# ram 32
#: launch N 0 1 I
#: refuse N 0 launch -3
#: refuse N 0 launch -3
#: refuse N 0 launch -3
#: refuse N 0 launch -16
#: refuse N 0 launch -3
#: refuse N 0 launch -3
#: launch N 0 2 I
    .include "secure.inc"
    .include "paging.inc"
    # the text's second page is this one
    .macro try register, code
    sd \register, 96(x9)
    b.launch x5, x9
    expect x5, \code
    .endm

_start:
    paging
    lla x8, text
    b.launch x5, x8
    expect x5, 1
    lla x9, other
    # no leaf, a leaf outside RAM
    addi x7, x0, 0x12
    try x7, -3
    addi x7, x0, 0x13
    try x7, -3
    # a table on an owned page
    addi x7, x0, 0x600
    try x7, -3
    # no text either
    sb x0, 0(x9)
    try x7, -16
    addi x6, x0, 0x42
    sb x6, 0(x9)
    # no address: the lowest of the upper half but one bit
    addi x7, x0, 1
    slli x7, x7, 26
    try x7, -3
    # the first page is owned by now, and the second nowhere
    addi x7, x0, 0x12
    addi x6, x0, 0x11
    sd x6, 80(x9)
    slli x6, x6, 12
    sd x6, 16(x9)
    try x7, -3
    addi x6, x0, 0x10
    sd x6, 80(x9)
    slli x6, x6, 12
    sd x6, 16(x9)
    # the highest virtual page
    addi x7, x0, -1
    srli x7, x7, 12
    try x7, 2
    jal x0, end
    .include "ends.inc"
    .org 1024
satp_value:
    .dword 0x8000000000080001
    .org 0x1000
    leaf 2, 1
    .org 0x1000 + 8 * 2
    leaf 0, RWX
    .org 0x1000 + 8 * 511
    leaf 4, 1
    .org 0x2000
    leaf 3, 1
    .org 0x2000 + 8 * 3
    leaf 17, 1
    .org 0x3000 + 8 * 0x10
    leaf 18, RWX
    leaf 16, RWX
    .dword 0
    leaf 32, RWX
    .org 0x4000 + 8 * 511
    leaf 5, 1
    .org 0x5000 + 8 * 511
    leaf 19, RWX
    .include "module_text.inc"
    .org 0x9000
other:
    segment 1, 2, 0, 0x10000
    page 0x10, PRIVATE, 5
    page 0x11, PRIVATE, 3
    .include "module_pages.inc"
