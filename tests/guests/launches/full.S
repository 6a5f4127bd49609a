# Fifteen modules of one text, each over a page with another number. The sixteenth finds the table
# full, and is refused as a duplicate first where it is one.
# ram 32
#: launch N 0 1 I
#: launch N 0 2 I
#: launch N 0 3 I
#: launch N 0 4 I
#: launch N 0 5 I
#: launch N 0 6 I
#: launch N 0 7 I
#: launch N 0 8 I
#: launch N 0 9 I
#: launch N 0 10 I
#: launch N 0 11 I
#: launch N 0 12 I
#: launch N 0 13 I
#: launch N 0 14 I
#: launch N 0 15 I
#: refuse N 0 launch -7
#: refuse N 0 launch -8
    .include "secure.inc"
    .include "paging.inc"
_start:
    paging
    lla x8, other
    lla x9, leaf
    lla x20, _start + 0x10000
    lui x21, 1
    ld x6, 0(x9)
    addi x18, x0, 1
    addi x19, x0, 16
next:
    # virtual page 0x10 leads to one page after the other, and each has its number
    sd x6, 0(x9)
    sd x18, 0(x20)
    b.launch x5, x8
    bne x5, x18, wrong
    addi x6, x6, 0x400
    add x20, x20, x21
    addi x18, x18, 1
    bne x18, x19, next
    sd x6, 0(x9)
    addi x18, x0, 3
    sd x18, 0(x20)
    b.launch x5, x8
    expect x5, -7
    sd x0, 0(x20)
    b.launch x5, x8
    expect x5, -8
    jal x0, end
    .include "ends.inc"
    .include "tables.inc"
    .org 0x3000 + 8 * 0x10
leaf:
    leaf 16, RWX
    .org 0x9000
other:
    segment 1, 1, 0, 0x10000
    page 0x10, PRIVATE, 5
