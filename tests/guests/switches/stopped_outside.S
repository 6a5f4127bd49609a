# A module jumps to its data, and another to nobody's page: neither may be executed by it, so it is
# stopped there. A return to that place doesn't resume it: the data stay denied, and nobody's page is
# just executed. A module that was stopped there can only be evicted.
# ram 32
#: launch N 0 1 I
#: launch N 0 2 I
#: call N 0 0 1 0000000080010000
#: deny N 0 1 fetch 0000000080011
#: stop N 0 1 0000000080011000
#: trap N 0 0000000000000001 0000000080011000
#: deny N 0 0 fetch 0000000080011
#: trap N 0 0000000000000001 0000000080011000
#: call N 0 0 2 0000000080012000
#: deny N 0 2 fetch 0000000080013
#: stop N 0 2 0000000080013000
#: trap N 0 0000000000000001 0000000080013000
#: trap N 0 0000000000000003 0000000080013004
#: evict N 0 1 1
#: evict N 0 2 1
    .include "secure.inc"
_start:
    trap_to handler
    lla x7, text
    b.launch x5, x7
    expect x5, 1
    lla x7, other
    b.launch x6, x7
    expect x6, 2
    lla x9, _start + 0x10000
    lla x10, _start + 0x11000
    behind stopped
    b.call x7, x5, x9
stopped:
    # sepc and the mode are as the trap left them
    behind denied
    sret
denied:
    addi x6, x0, 2
    lla x9, _start + 0x12000
    lla x10, _start + 0x13000
    behind stopped_again
    b.call x7, x6, x9
stopped_again:
    behind executed
    sret
executed:
    expect x18, 33
    addi x5, x0, 1
    b.evict x5, x5
    expect x5, 0
    addi x5, x0, 2
    b.evict x5, x5
    expect x5, 0
    jal x0, end
handler:
    go_behind
    .include "ends.inc"
    .include "module_text.inc"
    .org 0x9000
other:
    segment 1, 1, 0, 0x80012000
    page 0x80012, PRIVATE, 5
    .org 0x10000
    jalr x0, 0(x10)
    .org 0x11000
    addi x18, x0, 44
    .org 0x12000
    jalr x0, 0(x10)
    .org 0x13000
    addi x18, x0, 33
    ebreak
