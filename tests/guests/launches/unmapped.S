# Where the walk of a text's address finds no page of its own: no leaf, no address, a leaf outside
# RAM, a page or a table that a module owns. A leaf needs no permission and no bit A.
# ram 32
#: launch N 0 1 I
#: refuse N 0 launch -2
#: refuse N 0 launch -2
#: refuse N 0 launch -2
#: refuse N 0 launch -2
#: refuse N 0 launch -2
#: refuse N 0 launch -2
#: refuse N 0 launch -2
#: refuse N 0 launch -2
#: launch N 0 2 I
    .include "secure.inc"
    .include "paging.inc"
    .macro try virtual, code
    lui x8, \virtual
    b.launch x5, x8
    expect x5, \code
    .endm

_start:
    paging
    # it owns pages 16 and 17
    lla x8, text
    b.launch x5, x8
    expect x5, 1
    # an entry of zeros, a leaf outside RAM, an owned page, a leaf of 2 MiB that isn't aligned
    try 0x10, -2
    try 0x11, -2
    try 0x12, -2
    try 0x400, -2
    # a table on an owned page, a table that has bit A, a leaf that may be written and not read
    try 0x600, -2
    try 0x800, -2
    try 0x13, -2
    # no address
    addi x8, x0, 1
    slli x8, x8, 38
    b.launch x5, x8
    expect x5, -2
    # a leaf that may be executed alone
    try 0x14, 2
    jal x0, end
    .include "ends.inc"
    .org 1024
satp_value:
    .dword 0x8000000000080001
    .org 0x1000
    leaf 2, 1
    .org 0x1000 + 8 * 2
    leaf 0, RWX
    .org 0x2000
    leaf 3, 1
    .org 0x2000 + 8 * 2
    leaf 8, RWX
    leaf 17, 1
    leaf 3, 0x41
    .org 0x3000 + 8 * 0x11
    leaf 32, RWX
    leaf 17, RWX
    leaf 9, 0xc5
    leaf 9, 9
    leaf 18, 1 | 8
    .include "module_text.inc"
    .org 0x9000
    segment 1, 1, 0, 0x15000
    page 0x15, PRIVATE, 4
    .include "module_pages.inc"
