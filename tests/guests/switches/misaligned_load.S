# A misaligned load in a module: it is stopped, and of its address only the page is told.
# ram 32
#: launch N 0 1 I
#: call N 0 0 1 0000000080010000
#: stop N 0 1 0000000080010008
#: trap N 0 0000000000000004 0000000080010008
    .include "secure.inc"
_start:
    trap_to handler
    lla x7, text
    b.launch x5, x7
    lla x9, _start + 0x10000
    lla x10, _start + 0x10000123
    b.call x5, x5, x9
    jal x0, wrong
handler:
    csrrs x5, stval, x0
    lla x6, _start + 0x10000000
    bne x5, x6, wrong
    csrrs x5, scause, x0
    expect x5, 4
    jal x0, end
    .include "ends.inc"
    .include "module_text.inc"
    .org 0x10000
    addi x0, x0, 0
    addi x0, x0, 0
    ld x5, 0(x10)
