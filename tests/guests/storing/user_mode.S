# A process in mode U calls a module of mode U, which stores and reads words, and is refused as one
# of mode S is.
# ram 32
#: launch N 0 1 I
#: call N 0 0 1 0000000080010000
#: ret N 0 1 0 P
#: call N 0 0 1 0000000080010000
#: sset N 0 1 31
#: ret N 0 1 0 P
#: call N 0 0 1 0000000080010000
#: ret N 0 1 0 P
#: call N 0 0 1 0000000080010000
#: refuse N 0 sset -1
#: ret N 0 1 0 P
#: call N 0 0 1 0000000080010000
#: ret N 0 1 0 P
#: trap N 0 0000000000000008 P
    .include "secure.inc"
    .include "words.inc"
_start:
    trap_to wrong
    lla x7, text
    b.launch x18, x7
    lla x19, _start + 0x10000
    lla x7, user
    csrrw x0, sepc, x7
    trap_to handler
    sret
user:
    reads 31, 0
    stores 31, -3
    reads 31, -3
    stores 32, 1, -1
    reads 32, 0
    addi x20, x0, 1
    ecall
# after the last call, and not where one answered something else
handler:
    expect x20, 1
    jal x0, end
    .include "ends.inc"
    .org 0x8000
text:
    segment 0, 1, 0, 0x80010000
    page 0x80010, PRIVATE, 5
    .org 0x10000
    keeper
