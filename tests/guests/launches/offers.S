# A module offers two pages to partners, and another accepts them. Until then they aren't offered;
# nor is one with more rights than it is offered with, to no partner, or to a partner that the mask
# of the page doesn't name. The offered pages have owners.
# ram 32
#: refuse N 0 launch -6
#: launch N 0 1 I
#: refuse N 0 launch -6
#: refuse N 0 launch -6
#: refuse N 0 launch -6
#: refuse N 0 launch -6
#: launch N 0 2 I
#: refuse N 0 launch -4
#: refuse N 0 launch -4
#: refuse N 0 launch -4
#: deny N 0 0 load 0000000080014
#: trap N 0 0000000000000005 P
#: deny N 0 0 store 0000000080015
#: trap N 0 0000000000000007 P
    .include "secure.inc"
    .macro try name, code
    lla x8, \name
    b.launch x5, x8
    expect x5, \code
    .endm

_start:
    trap_to handler
    try accepts, -6
    try offers, 1
    try wants_more, -6
    try stranger, -6
    try unnamed, -6
    try other_page, -6
    try accepts, 2
    try accepts, -4
    try takes, -4
    try offers_too, -4
    lla x8, _start + 0x14000
    lla x9, _start + 0x15000
    lla x29, 1f
    ld x6, 0(x8)
1:  lla x29, 2f
    sd x8, 0(x9)
2:  expect x6, 0
    jal x0, end
handler:
    jalr x0, 0(x29)
    .include "ends.inc"

    .equ CODE, 0x80010
    .equ FIRST, 0x80014
    .equ SECOND, 0x80015
    .org 0x8000
offers:
    segment 1, 3, 3, 0x80010000
    page 0x80010, PRIVATE, 5
    page FIRST, OFFER, 3, 0b011
    page SECOND, OFFER, 1, 0b111
    partners 3
    # of `accepts`, `wants_more` and `unnamed`
    .dword 0xad4ae95fea6c60a2, 0xc5dab67f12540d79, 0xb2719690f4a801a6, 0xcef02389fd395781
    .dword 0xc8e1db113d9dc699, 0x430091b65ee02a04, 0x62257f90c0e17ed4, 0x5a31ea6b489dcee5
    .dword 0xa8b7482a9923437f, 0x675eec227c2aea52, 0xd29f6ae4ce495f8e, 0xb928edadba47e6b
    .org 0x8000 + 1232
takes:
    segment 1, 2, 0, 0x80012000
    page 0x80012, PRIVATE, 5
    page FIRST, PRIVATE, 3
    .org 0x8000 + 2464
offers_too:
    segment 1, 2, 1, 0x80012000
    page 0x80012, PRIVATE, 5
    page SECOND, OFFER, 1, 1
    partners 2
    .dword 1, 2, 3, 4
    .org 0x9000
accepts:
    segment 1, 3, 0, 0x80011000
    page 0x80011, PRIVATE, 5
    page FIRST, ACCEPT, 1
    page SECOND, ACCEPT, 1
    .org 0x9000 + 1232
wants_more:
    segment 1, 2, 0, 0x80012000
    page 0x80012, PRIVATE, 5
    page SECOND, ACCEPT, 3
    .org 0x9000 + 2464
stranger:
    segment 0, 2, 0, 0x80012000
    page 0x80012, PRIVATE, 5
    page SECOND, ACCEPT, 1
    .org 0xa000
unnamed:
    segment 1, 2, 0, 0x80012000
    page 0x80012, PRIVATE, 5
    page FIRST, ACCEPT, 1
    .org 0xa000 + 1232
other_page:
    segment 1, 2, 0, 0x80012000
    page 0x80012, PRIVATE, 5
    page 0x80016, ACCEPT, 1
    .org 0x14000
    .dword 0x5555
