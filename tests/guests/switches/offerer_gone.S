# The module that offers a page is evicted: who accepted it has it no more, is told that nobody
# offers it, and keeps it from others until it goes too. The page has been zeros since.
# ram 32
#: launch N 0 1 I
#: launch N 0 2 I
#: evict N 0 1 1
#: refuse N 0 launch -4
#: call N 0 0 2 0000000080011000
#: deny N 0 2 load 0000000080014
#: stop N 0 2 000000008001100c
#: trap N 0 0000000000000005 000000008001100c
#: refuse N 0 launch -4
#: evict N 0 2 1
#: launch N 0 3 I
    .include "secure.inc"
_start:
    trap_to handler
    lla x7, offers
    b.launch x5, x7
    expect x5, 1
    lla x7, accepts
    b.launch x6, x7
    expect x6, 2
    b.evict x5, x5
    expect x5, 0
    lla x7, takes
    b.launch x5, x7
    expect x5, -4
    lla x10, _start + 0x14000
    lla x9, _start + 0x11000
    b.call x7, x6, x9
    jal x0, wrong
handler:
    lla x7, takes
    b.launch x5, x7
    expect x5, -4
    addi x5, x0, 2
    b.evict x5, x5
    expect x5, 0
    lla x6, _start + 0x14000
    ld x5, 0(x6)
    expect x5, 0
    b.launch x5, x7
    expect x5, 3
    jal x0, end
    .include "ends.inc"
    .org 0x8000
offers:
    segment 1, 2, 1, 0x80010000
    page 0x80010, PRIVATE, 5
    page 0x80014, OFFER, 3, 1
    partners 2
    # of `accepts`
    .dword 0xe32cb182c2a6d3a8, 0xa7abe3c1a91eceab, 0x554efb3f053139eb, 0x5303f1ec2099de4a
    .org 0x8000 + 1232
takes:
    segment 1, 2, 0, 0x80012000
    page 0x80012, PRIVATE, 5
    page 0x80014, PRIVATE, 3
    .org 0x9000
accepts:
    segment 1, 2, 0, 0x80011000
    page 0x80011, PRIVATE, 5
    page 0x80014, ACCEPT, 1
    .org 0x11000
    b.offerer x7, x10
    bne x7, x0, 1f
    addi x0, x0, 0
    ld x5, 0(x10)
1:  .word 0
    .org 0x14000
    .dword 0x5555
