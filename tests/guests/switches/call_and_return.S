# The untrusted world calls A, which calls B; both return. A callee gets a0 to a7 and nothing else,
# and its caller gets back what it had, but for a0, a1 and the destination.
# ram 32
#: launch N 0 1 I
#: launch N 0 2 I
#: call N 0 0 1 0000000080010000
#: call N 0 1 2 0000000080012000
#: ret N 0 2 1 0000000080010014
#: ret N 0 1 0 0000000080000104
    .include "secure.inc"
_start:
    lla x7, text
    b.launch x5, x7
    expect x5, 1
    lla x7, other
    b.launch x5, x7
    expect x5, 2
    addi x1, x0, 101
    addi x2, x0, 102
    addi x10, x0, 10
    addi x11, x0, 20
    addi x12, x0, 30
    addi x17, x0, 70
    addi x18, x0, 118
    addi x31, x0, 131
    addi x8, x0, 1
    lla x9, _start + 0x10000
    addi x16, x0, 60
    jal x0, 1f
    .org 0x100
1:  b.call x30, x8, x9
    # what A made of it
    addi x28, x31, 0
    expect x10, 10 + 20 + 30 + 70 + 1000
    expect x11, 20 + 1
    expect x12, 30
    expect x17, 70
    expect x16, 60
    expect x1, 101
    expect x2, 102
    expect x18, 118
    expect x30, 0
    expect x8, 1
    expect x28, 131
    jal x0, end
    .include "ends.inc"
    .include "module_text.inc"
    .org 0x9000
other:
    segment 1, 1, 0, 0x80012000
    page 0x80012, PRIVATE, 5
    # A: a0 + a1 + a2 + a7, and 1000 where no other register had anything, and B's a1
    .org 0x10000
    jal x0, prepare
    .org 0x10010
    b.call x5, x6, x7
    bne x5, x0, bad
    addi x8, x0, 2
    bne x6, x8, bad
    # B got A's a0, and changed a2 for itself
    bne x12, x9, bad
    b.ret
bad:
    addi x10, x0, -1
    b.ret
prepare:
    or x1, x1, x2
    or x1, x1, x3
    or x1, x1, x4
    or x1, x1, x5
    or x1, x1, x6
    or x1, x1, x7
    or x1, x1, x8
    or x1, x1, x9
    or x1, x1, x18
    or x1, x1, x19
    or x1, x1, x20
    or x1, x1, x21
    or x1, x1, x22
    or x1, x1, x23
    or x1, x1, x24
    or x1, x1, x25
    or x1, x1, x26
    or x1, x1, x27
    or x1, x1, x28
    or x1, x1, x29
    or x1, x1, x30
    or x1, x1, x31
    bne x1, x0, bad
    add x10, x10, x11
    add x10, x10, x12
    add x10, x10, x17
    addi x9, x12, 0
    addi x5, x0, 5
    addi x6, x0, 2
    lui x7, 0x80012
    slli x7, x7, 32
    srli x7, x7, 32
    jal x0, _start + 0x10010
    .org 0x12000
    # B: a0 + 1000 where it has none of A's registers, and a1 + 1
    bne x9, x0, 1f
    addi x10, x10, 1000
1:  addi x11, x11, 1
    addi x12, x0, 99
    b.ret
