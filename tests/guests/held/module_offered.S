# A module loads from a page that another offers, over and over. Another hart evicts who offers it:
# the next load is denied, and the module is stopped. A later module that offers the page gives the
# first nothing.
# ram 64
# harts 2
#= 0 FF
#: start N 0 1 P
#: launch N 0 1 I
#: launch N 0 2 I
#: call N 0 0 2 0000000080018000
#: evict N 1 1 1
#: stop N 0 2 P
#: refuse N 0 launch -4
#: resume N 0 2 P
#: stop N 0 2 P
    .include "held.inc"
    .equ CODE, 26
_start:
    trap_to denied
    set_tables
    contents SECOND, 'b', 'd'
    entry LOW, LOW_INDEX, SECOND, RWX
    copy_code module, FIRST, 2
    start_hart 1, evicts
    virtual_page
    paging
    lla x7, offers
    b.launch x18, x7
    lla x7, accepts
    b.launch x19, x7
    addi x10, x8, 0
    lla x9, _start + 0x1000 * FIRST
    b.call x5, x19, x9
    jal x0, wrong
module:
    lbu x12, 0(x10)
    jal x0, module
    # once back to the module, and then the end
denied:
    csrrs x10, scause, x0
    addi x10, x10, 'A'
    write
    lla x6, is_again
    ld x5, 0(x6)
    bne x5, x0, end
    sd x6, 0(x6)
    lla x7, offers
    b.launch x5, x7
    sret
evicts:
    trap_to wrong
    paging
    wait 200
    addi x18, x0, 1
    b.evict x5, x18
    jal x0, .
    .include "ends.inc"
    .balign 8
is_again:
    .dword 0
    .balign 2048
offers:
    segment 1, 2, 1, 0x8001a000
    page 0x40605, OFFER, 3, 1
    page 0x8001a, PRIVATE, 5
    partners 2
    # of `accepts`
    .dword 0xf65f12b3b8f18524, 0x4f92f32a61e8cba1, 0x23752c9905e1b100, 0xff899a09c96a067e
    .zero 96
    .balign 2048
accepts:
    segment 1, 2, 0, 0x80018000
    page 0x40605, ACCEPT, 1
    page 0x80018, PRIVATE, 5
    partners 2
    .zero 128
