# An idle module that accepts a page is evicted: the page keeps its bytes, and its owner its access;
# the module's own page is zeros.
# ram 32
#: launch N 0 1 I
#: launch N 0 2 I
#: evict N 0 2 1
#: deny N 0 0 load 0000000080014
#: trap N 0 0000000000000005 P
#: call N 0 0 1 0000000080010000
#: ret N 0 1 0 P
    .include "secure.inc"
_start:
    trap_to handler
    lla x7, offers
    b.launch x5, x7
    expect x5, 1
    lla x7, accepts
    b.launch x6, x7
    expect x6, 2
    b.evict x6, x6
    expect x6, 0
    lla x7, _start + 0x11000
    ld x6, 0(x7)
    expect x6, 0
    ld x6, 16(x7)
    expect x6, 0
    lla x10, _start + 0x14000
    behind denied
    ld x6, 0(x10)
    jal x0, wrong
denied:
    lla x9, _start + 0x10000
    addi x11, x0, 66
    b.call x7, x5, x9
    expect x10, 55
    expect x11, 66
    jal x0, end
handler:
    go_behind
    .include "ends.inc"
    .org 0x8000
offers:
    segment 1, 2, 1, 0x80010000
    page 0x80010, PRIVATE, 5
    page 0x80014, OFFER, 3, 1
    partners 2
    # of `accepts`
    .dword 0xc5a5a0ff5f23766f, 0xb414bbad8c0172e3, 0x5a4ea0781efa7c6a, 0x26604ccd095faa1e
    .org 0x9000
accepts:
    segment 1, 2, 0, 0x80011000
    page 0x80011, PRIVATE, 7
    page 0x80014, ACCEPT, 3
    .org 0x10000
    ld x5, 0(x10)
    sd x11, 8(x10)
    ld x11, 8(x10)
    addi x10, x5, 0
    b.ret
    .org 0x11000
    b.ret
    .org 0x11010
    .dword 77
    .org 0x14000
    .dword 55
