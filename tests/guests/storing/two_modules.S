# Two modules of one code, whose pages have another number each: neither reads or changes what the
# other keeps, also where one calls the other. What counts is which module runs, and not who called
# it.
# ram 32
#: launch N 0 1 I
#: launch N 0 2 I
#: call N 0 0 1 0000000080010000
#: sset N 0 1 0
#: ret N 0 1 0 P
#: call N 0 0 2 0000000080012000
#: ret N 0 2 0 P
#: call N 0 0 2 0000000080012000
#: sset N 0 2 31
#: ret N 0 2 0 P
#: call N 0 0 2 0000000080012000
#: sset N 0 2 0
#: ret N 0 2 0 P
#: call N 0 0 1 0000000080010000
#: ret N 0 1 0 P
#: call N 0 0 1 0000000080010000
#: ret N 0 1 0 P
#: call N 0 0 1 0000000080010014
#: call N 0 1 2 0000000080012000
#: sset N 0 2 0
#: ret N 0 2 1 P
#: sset N 0 1 1
#: ret N 0 1 0 P
#: call N 0 0 1 0000000080010000
#: ret N 0 1 0 P
#: call N 0 0 1 0000000080010000
#: ret N 0 1 0 P
#: call N 0 0 2 0000000080012000
#: ret N 0 2 0 P
#: call N 0 0 2 0000000080012000
#: ret N 0 2 0 P
    .include "secure.inc"
    .include "words.inc"
    .macro first
    addi x18, x0, 1
    lla x19, _start + 0x10000
    .endm
    .macro second
    addi x18, x0, 2
    lla x19, _start + 0x12000
    .endm
_start:
    trap_to wrong
    lla x7, text
    b.launch x5, x7
    lla x7, other
    b.launch x6, x7
    expect x6, 2
    first
    stores 0, 11
    second
    reads 0, 0
    stores 31, 29
    stores 0, 22
    first
    reads 0, 11
    reads 31, 0
    # the first calls the second, which stores to its own first word, and then the first stores to
    # its own second word what it reads of its first
    addi x10, x0, 0
    addi x11, x0, 33
    addi x12, x0, 0
    addi x13, x0, 2
    lla x14, _start + 0x12000
    addi x19, x19, 20
    b.call x5, x18, x19
    bne x5, x0, wrong
    expect x10, 0
    first
    reads 0, 11
    reads 1, 11
    second
    reads 0, 33
    reads 1, 0
    jal x0, end
    .include "ends.inc"
    .org 0x8000
text:
    .ascii "BNSG"
    .byte 1, 1, 2, 1, 0
    .zero 7
    .dword 0x80010000, 0x80010014
    .zero 48
    page 0x80010, PRIVATE, 5
    .org 0x9000
other:
    segment 1, 1, 0, 0x80012000
    page 0x80012, PRIVATE, 5
    .org 0x10000
    keeper
    b.call x5, x13, x14
    bne x10, x0, 1f
    addi x6, x0, 1
    b.sget x7, x0
    b.sset x10, x6, x7
1:  b.ret
    .org 0x12000
    keeper
