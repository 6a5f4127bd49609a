# Refused calls, in their order: no such module, no entry of it, another mode, not idle. The
# register gets the code, and the next instruction is executed.
# ram 32
#: launch N 0 1 I
#: launch N 0 2 I
#: refuse N 0 call -2
#: refuse N 0 call -1
#: refuse N 0 call -1
#: refuse N 0 call -3
#: refuse N 0 call -2
#: refuse N 0 call -2
#: call N 0 0 1 0000000080010000
#: stop N 0 1 0000000080010000
#: trap N 0 0000000000000002 0000000080010000
#: refuse N 0 call -4
#: refuse N 0 call -2
    .include "secure.inc"
    .macro try code
    b.call x5, x8, x9
    expect x5, \code
    .endm

_start:
    trap_to handler
    lla x7, text
    b.launch x5, x7
    expect x5, 1
    lla x7, other
    b.launch x5, x7
    expect x5, 2
    addi x8, x0, 1
    lla x9, _start + 0x10004
    try -2
    addi x8, x0, 9
    try -1
    addi x9, x9, -4
    try -1
    # the other is of mode U; its entry is one, and the first's isn't
    addi x8, x0, 2
    lla x9, _start + 0x12000
    try -3
    addi x9, x9, 4
    try -2
    # an address of more bits
    addi x8, x0, 1
    slli x9, x8, 63
    lla x7, _start + 0x10000
    add x9, x9, x7
    try -2
    # it is stopped at once
    addi x9, x7, 0
    behind stopped
    b.call x5, x8, x9
    jal x0, wrong
stopped:
    addi x8, x0, 1
    lla x9, _start + 0x10000
    try -4
    addi x9, x9, 4
    try -2
    jal x0, end
handler:
    go_behind
    .include "ends.inc"
    .include "module_text.inc"
    .org 0x9000
other:
    segment 0, 1, 0, 0x80012000
    page 0x80012, PRIVATE, 5
    .org 0x10000
    ebreak
