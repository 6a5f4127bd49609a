# A module that another waits for is stopped, and evicted with it: their own pages become zeros and
# anyone's, and their ids don't come again.
# ram 32
#: launch N 0 1 I
#: launch N 0 2 I
#: refuse N 0 evict -1
#: call N 0 0 1 0000000080010000
#: call N 0 1 2 0000000080012000
#: stop N 0 2 0000000080012000
#: trap N 0 0000000000000002 0000000080012000
#: refuse N 0 evict -2
#: evict N 0 2 2
#: refuse N 0 evict -1
#: launch N 0 3 I
    .include "secure.inc"
_start:
    trap_to handler
    lla x7, text
    b.launch x5, x7
    lla x7, other
    b.launch x6, x7
    addi x8, x0, 9
    b.evict x7, x8
    expect x7, -1
    lla x9, _start + 0x10000
    lla x10, _start + 0x12000
    b.call x7, x5, x9
    jal x0, wrong
handler:
    addi x5, x0, 1
    b.evict x6, x5
    expect x6, -2
    addi x5, x0, 2
    b.evict x5, x5
    expect x5, 0
    lla x9, _start + 0x10000
    ld x5, 0(x9)
    expect x5, 0
    lui x6, 1
    add x9, x9, x6
    ld x5, 0(x9)
    expect x5, 0
    add x9, x9, x6
    ld x5, 0(x9)
    expect x5, 0
    addi x5, x0, 1
    b.evict x5, x5
    expect x5, -1
    lla x7, text
    b.launch x5, x7
    expect x5, 3
    jal x0, end
    .include "ends.inc"
    .include "module_text.inc"
    .org 0x9000
other:
    segment 1, 1, 0, 0x80012000
    page 0x80012, PRIVATE, 5
    .org 0x10000
    addi x8, x0, 2
    b.call x5, x8, x10
    .org 0x11000
    .dword 0x1122334455667788
    .org 0x12000
    ebreak
