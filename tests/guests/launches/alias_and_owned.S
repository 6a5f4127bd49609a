# Two virtual pages of one guest page; a page that a live module has; both at once; both and no
# magic. An accepted page may have an owner, but isn't offered here.
# ram 32
#: launch N 0 1 I
#: refuse N 0 launch -5
#: refuse N 0 launch -4
#: refuse N 0 launch -4
#: refuse N 0 launch -16
#: refuse N 0 launch -5
#: refuse N 0 launch -6
    .include "secure.inc"
    .include "paging.inc"
    .macro try name, code
    lla x8, \name
    b.launch x5, x8
    expect x5, \code
    .endm

_start:
    paging
    try text, 1
    try alias, -5
    try owned, -4
    try both, -4
    sb x0, 0(x8)
    try both, -16
    try accepted_alias, -5
    try accepted, -6
    jal x0, end
    .include "ends.inc"
    .include "tables.inc"
    .org 0x3000 + 8 * 0x10
    leaf 18, RWX
    leaf 18, RWX
    leaf 16, RWX
    leaf 19, RWX
    .include "module_text.inc"
    .org 0x9000
alias:
    segment 1, 2, 0, 0x10000
    page 0x10, PRIVATE, 5
    page 0x11, PRIVATE, 3
    .org 0x9000 + 1232
owned:
    segment 1, 2, 0, 0x13000
    page 0x12, PRIVATE, 3
    page 0x13, PRIVATE, 5
    .org 0x9000 + 2464
both:
    segment 1, 3, 0, 0x10000
    page 0x10, PRIVATE, 5
    page 0x11, PRIVATE, 3
    page 0x12, PRIVATE, 3
    .org 0xa000
accepted_alias:
    segment 1, 2, 0, 0x10000
    page 0x10, PRIVATE, 5
    page 0x11, ACCEPT, 3
    .org 0xa000 + 1232
accepted:
    segment 1, 2, 0, 0x13000
    page 0x12, ACCEPT, 1
    page 0x13, PRIVATE, 5
    .include "module_pages.inc"
