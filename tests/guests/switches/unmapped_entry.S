# A module is called while its code is mapped nowhere: it is stopped at its entry by a page fault.
# Once the code is mapped, a return to the entry resumes it.
# ram 32
#: launch N 0 1 I
#: call N 0 0 1 0000000000010000
#: stop N 0 1 0000000000010000
#: trap N 0 000000000000000c 0000000000010000
#: resume N 0 1 0000000000010000
#: ret N 0 1 0 P
    .include "secure.inc"
    .include "paging.inc"
_start:
    trap_to handler
    paging
    lla x7, other
    b.launch x8, x7
    expect x8, 1
    lla x7, leaves
    ld x6, 0(x7)
    sd x0, 0(x7)
    lui x9, 0x10
    b.call x5, x8, x9
    expect x10, 7
    jal x0, end
handler:
    csrrs x5, stval, x0
    lui x6, 0x10
    bne x5, x6, wrong
    lla x7, leaves
    ld x6, 8(x7)
    sd x6, 0(x7)
    sret
    .include "ends.inc"
    .include "tables.inc"
    .org 0x3000 + 8 * 0x10
leaves:
    leaf 16, RWX
    leaf 16, RWX
    .org 0x9000
other:
    segment 1, 1, 0, 0x10000
    page 0x10, PRIVATE, 5
    .org 0x10000
    addi x10, x0, 7
    b.ret
