# What a module reaches: its own pages by their rights, and to load and store all that is nobody's.
# It executes its own code alone.
# ram 32
#: launch N 0 1 I
#: launch N 0 2 I
#: call N 0 0 1 0000000080010000
#: deny N 0 1 store 0000000080010
#: stop N 0 1 P
#: trap N 0 0000000000000007 P
#: call N 0 0 2 0000000080012000
#: deny N 0 2 fetch 0000000080000
#: stop N 0 2 0000000080000000
#: trap N 0 0000000000000001 0000000080000000
    .include "secure.inc"
_start:
    trap_to handler
    lla x7, text
    b.launch x5, x7
    lla x7, other
    b.launch x6, x7
    expect x6, 2
    lla x9, _start + 0x10000
    lla x10, _start + 0x11000
    lla x11, _start + 0x18000
    lla x12, _start + 0x12000
    behind first
    b.call x7, x5, x9
    jal x0, wrong
first:
    # the first stored to nobody's page what it had in its own
    lla x7, _start + 0x18000
    ld x6, 0(x7)
    expect x6, 88
    addi x6, x0, 2
    lla x9, _start + 0x12000
    lla x10, _start
    behind second
    b.call x7, x6, x9
    jal x0, wrong
second:
    csrrs x5, stval, x0
    lla x6, _start
    bne x5, x6, wrong
    jal x0, end
handler:
    go_behind
    .include "ends.inc"
    .include "module_text.inc"
    .org 0x9000
other:
    segment 1, 1, 0, 0x80012000
    page 0x80012, PRIVATE, 4
    .org 0x10000
    # the page of its code may be loaded from, and not stored to
    ld x6, 0(x10)
    addi x6, x6, 11
    sd x6, 0(x10)
    ld x7, 0(x10)
    sd x7, 0(x11)
    auipc x9, 0
    lw x5, 0(x9)
    sw x5, 0(x9)
    .org 0x11000
    .dword 77
    .org 0x12000
    jalr x0, 0(x10)
