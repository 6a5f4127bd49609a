# A module loads from a page that it accepts, and is told whose it is; it may not store there with
# the right to load alone.
# ram 32
#: launch N 0 1 I
#: launch N 0 2 I
#: call N 0 0 1 0000000080010000
#: ret N 0 1 0 P
#: call N 0 0 2 0000000080011000
#: deny N 0 2 store 0000000080014
#: stop N 0 2 0000000080011018
#: trap N 0 0000000000000007 0000000080011018
    .include "secure.inc"
_start:
    trap_to handler
    lla x7, offers
    b.launch x5, x7
    expect x5, 1
    lla x7, accepts
    b.launch x6, x7
    expect x6, 2
    lla x10, _start + 0x14000
    addi x11, x0, 55
    lla x9, _start + 0x10000
    b.call x7, x5, x9
    lla x9, _start + 0x11000
    b.call x7, x6, x9
    jal x0, wrong
handler:
    csrrs x5, stval, x0
    # of the address the page alone is told
    lla x6, _start + 0x14000
    bne x5, x6, wrong
    jal x0, end
    .include "ends.inc"
    .org 0x8000
offers:
    segment 1, 2, 1, 0x80010000
    page 0x80010, PRIVATE, 5
    page 0x80014, OFFER, 3, 1
    partners 2
    # of `accepts`
    .dword 0x2f43552d586d3c7c, 0x48b2e5106b2d25b4, 0xb1c6d9df57c59935, 0x855bee070cc1564b
    .org 0x9000
accepts:
    segment 1, 2, 0, 0x80011000
    page 0x80011, PRIVATE, 5
    page 0x80014, ACCEPT, 1
    .org 0x10000
    sd x11, 0(x10)
    b.ret
    .org 0x11000
    ld x5, 0(x10)
    addi x6, x0, 55
    bne x5, x6, 1f
    b.offerer x7, x10
    addi x7, x7, -1
    bne x7, x0, 1f
    sb x0, 8(x10)
1:  .word 0
