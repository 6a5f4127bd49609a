# A module that declares the page from which it is launched: the next fetch is denied.
# ram 32
#: launch N 0 1 I
#: deny N 0 0 fetch 0000000080000
#: trap N 0 0000000000000001 0000000080000018
    .include "secure.inc"
_start:
    trap_to handler
    lla x8, own
    b.launch x5, x8
    addi x5, x0, 0
    .org 0x1000
handler:
    expect x5, 1
    csrrs x6, scause, x0
    expect x6, 1
    csrrs x6, stval, x0
    csrrs x7, sepc, x0
    bne x6, x7, wrong
    jal x0, end
    .include "ends.inc"
    .org 0x8000
own:
    segment 1, 2, 0, 0x80010000
    page 0x80000, PRIVATE, 1
    page 0x80010, PRIVATE, 5
