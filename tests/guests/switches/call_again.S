# A running module calls itself; one that it calls calls it back: neither is idle. Who calls and
# who is called, and words of identities.
# ram 32
#: launch N 0 1 I
#: launch N 0 2 I
#: call N 0 0 1 0000000080010000
#: refuse N 0 call -4
#: call N 0 1 2 0000000080012000
#: refuse N 0 call -4
#: ret N 0 2 1 P
#: ret N 0 1 0 P
    .include "secure.inc"
_start:
    lla x7, text
    b.launch x5, x7
    expect x5, 1
    lla x7, other
    b.launch x5, x7
    expect x5, 2
    # A's and B's entries are arguments
    addi x8, x0, 1
    lla x10, _start + 0x10000
    lla x11, _start + 0x12000
    b.call x30, x8, x10
    # 1 where B's caller was A, and 0 where A's was nobody
    expect x10, 1
    expect x11, 0
    # words 4, and words of nobody, are 0
    addi x9, x0, 4
    b.ident x5, x8, x9
    expect x5, 0
    addi x9, x0, 9
    b.ident x5, x9, x0
    expect x5, 0
    b.ident x5, x0, x0
    expect x5, 0
    # word 3 of the first and word 0 of the second
    addi x9, x0, 3
    b.ident x5, x8, x9
    lla x6, words
    ld x7, 0(x6)
    bne x5, x7, wrong
    addi x9, x0, 2
    b.ident x5, x9, x0
    ld x7, 8(x6)
    bne x5, x7, wrong
    jal x0, end
    .include "ends.inc"
    .balign 8
words:
    .dword 0x279c94ec658f9481, 0x648f2e418257dde4
    .include "module_text.inc"
    .org 0x9000
other:
    segment 1, 1, 0, 0x80012000
    page 0x80012, PRIVATE, 5
    .org 0x10000
    addi x8, x0, 1
    b.call x5, x8, x10
    addi x6, x0, -4
    bne x5, x6, 1f
    addi x8, x0, 2
    b.call x5, x8, x11
    b.caller x11
    b.ret
1:  addi x10, x0, -1
    b.ret
    .org 0x12000
    addi x8, x0, 1
    b.call x5, x8, x10
    addi x6, x0, -4
    bne x5, x6, 1f
    b.caller x10
    b.ret
1:  addi x10, x0, -1
    b.ret
