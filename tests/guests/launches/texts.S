# Each test of a text: two bytes of a good one are changed, and the launch is refused by the first
# test that fails.
# ram 32
    .include "secure.inc"
    .include "paging.inc"
_start:
    lla x8, text
    lla x9, changes
    lla x18, changes_end
next:
    lhu x20, 0(x9)
    lhu x21, 2(x9)
    add x20, x20, x8
    add x21, x21, x8
    # what stands there is kept, and comes back
    lbu x22, 0(x20)
    lbu x23, 0(x21)
    lbu x24, 4(x9)
    lbu x25, 5(x9)
    sb x24, 0(x20)
    sb x25, 0(x21)
    b.launch x5, x8
    sb x22, 0(x20)
    sb x23, 0(x21)
    lb x6, 6(x9)
    bne x5, x6, wrong
    addi x9, x9, 8
    bne x9, x18, next
    # it is good as it stands
    b.launch x5, x8
    expect x5, 1
    jal x0, end
    .include "ends.inc"

    .macro change code, first, byte, second=0, other=0x42
    .hword \first, \second
    .byte \byte, \other, \code, 0
    .endm
    .equ FIRST, 80
    .equ SECOND, 96
    .equ PARTNER, 1104
    .org 1024
changes:
    # magic
    change -16, 3, 0x48
    change -16, 3, 0x48, 0, 0x41
    # version, and before it magic
    change -17, 4, 0
    change -17, 4, 2
    change -16, 4, 2, 3, 0
    # mode
    change -18, 5, 2
    change -17, 5, 2, 4, 2
    # number of entries
    change -19, 6, 0
    change -19, 6, 9
    change -18, 6, 9, 5, 2
    # number of pages
    change -20, 7, 0
    change -20, 7, 65
    change -19, 7, 65, 6, 9
    # the order of the pages: two alike, one before the other, one past the last virtual page
    change -21, SECOND, 0x10
    change -21, SECOND, 0x0f
    change -21, SECOND + 6, 0x10
    change -20, SECOND, 0x10, 7, 65
    # sorts
    change -22, FIRST + 8, 0
    change -22, SECOND + 8, 4
    change -21, SECOND + 8, 4, SECOND, 0x10
    # rights: of private pages, and of others, which are never executable
    change -23, FIRST + 9, 0
    change -23, FIRST + 9, 2
    change -23, FIRST + 9, 6
    change -23, FIRST + 9, 8
    change -23, SECOND + 8, OFFER, SECOND + 9, 5
    change -23, SECOND + 8, ACCEPT, SECOND + 9, 2
    change -22, SECOND + 9, 2, FIRST + 8, 0
    # entries: no multiple of 4, at a page without fetch, at none, at one that isn't private
    change -24, 16, 2
    change -24, 17, 0x10
    change -24, 17, 0x20
    change -24, FIRST + 8, ACCEPT, FIRST + 9, 1
    change -23, 16, 2, FIRST + 9, 6
    # partners and masks
    change -25, 8, 5
    change -25, SECOND + 8, OFFER
    change -25, SECOND + 8, OFFER, SECOND + 10, 1
    change -25, FIRST + 10, 1
    change -25, SECOND + 8, ACCEPT, SECOND + 10, 1
    change -24, 8, 5, 16, 2
    # what must be zeros: in the head, an unused entry, a page, an unused page, an unused partner
    change -26, 9, 1
    change -26, 15, 1
    change -26, 24, 1
    change -26, 79, 1
    change -26, FIRST + 11, 1
    change -26, SECOND + 15, 1
    change -26, 112, 1
    change -26, 1103, 1
    change -26, PARTNER, 1
    change -26, PARTNER + 127, 1
    change -25, 9, 1, 8, 5
    # a partner that the number has may be anything, and the next not
    change -26, 8, 1, PARTNER + 32, 1
changes_end:
    .include "module_text.inc"
    .include "module_pages.inc"
