# A module stores all 32 of its words, each of 64 bits, and reads them back; it stores the first and
# the last anew, and the others stay.
# ram 32
#: launch N 0 1 I
#: call N 0 0 1 0000000080010000
#: sset N 0 1 0
#: sset N 0 1 1
#: sset N 0 1 2
#: sset N 0 1 3
#: sset N 0 1 4
#: sset N 0 1 5
#: sset N 0 1 6
#: sset N 0 1 7
#: sset N 0 1 8
#: sset N 0 1 9
#: sset N 0 1 10
#: sset N 0 1 11
#: sset N 0 1 12
#: sset N 0 1 13
#: sset N 0 1 14
#: sset N 0 1 15
#: sset N 0 1 16
#: sset N 0 1 17
#: sset N 0 1 18
#: sset N 0 1 19
#: sset N 0 1 20
#: sset N 0 1 21
#: sset N 0 1 22
#: sset N 0 1 23
#: sset N 0 1 24
#: sset N 0 1 25
#: sset N 0 1 26
#: sset N 0 1 27
#: sset N 0 1 28
#: sset N 0 1 29
#: sset N 0 1 30
#: sset N 0 1 31
#: sset N 0 1 31
#: sset N 0 1 0
#: ret N 0 1 0 P
    .include "secure.inc"
_start:
    trap_to wrong
    lla x7, text
    b.launch x5, x7
    lla x9, _start + 0x10000
    addi x10, x0, 0
    b.call x6, x5, x9
    bne x6, x0, wrong
    expect x10, 32
    jal x0, end
    .include "ends.inc"
    .include "module_text.inc"
    .org 0x10000
    # before the first b.sset each word is 0
    addi x6, x0, 32
1:  addi x6, x6, -1
    b.sget x7, x6
    bne x7, x0, bad
    bne x6, x0, 1b
    # the number of each has its index in the high byte, and in the low one more bits
    addi x5, x0, 32
2:  slli x8, x6, 56
    addi x8, x8, 129
    addi x7, x0, 5
    b.sset x7, x6, x8
    bne x7, x0, bad
    addi x6, x6, 1
    bne x6, x5, 2b
    addi x8, x0, -1
    addi x6, x0, 31
    b.sset x7, x6, x8
    b.sset x7, x0, x8
    b.sget x7, x0
    bne x7, x8, bad
    b.sget x7, x6
    bne x7, x8, bad
3:  addi x6, x6, -1
    beq x6, x0, 4f
    slli x8, x6, 56
    addi x8, x8, 129
    b.sget x7, x6
    beq x7, x8, 3b
bad:
    addi x10, x0, -1
    b.ret
4:  addi x10, x5, 0
    b.ret
