# A module that stores and reads by registers which are one and the same, or x0: a word is stored by
# what they held before, and rd gets 0 or the refusal, or the word.
# ram 32
#: launch N 0 1 I
#: call N 0 0 1 0000000080010000
#: sset N 0 1 3
#: sset N 0 1 4
#: sset N 0 1 5
#: sset N 0 1 0
#: sset N 0 1 31
#: sset N 0 1 6
#: refuse N 0 sset -1
#: refuse N 0 sset -1
#: refuse N 0 sset -1
#: ret N 0 1 0 P
    .include "secure.inc"
_start:
    trap_to wrong
    lla x7, text
    b.launch x5, x7
    lla x9, _start + 0x10000
    b.call x6, x5, x9
    bne x6, x0, wrong
    expect x10, 1
    jal x0, end
    .include "ends.inc"
    .include "module_text.inc"
    .macro wants register, value
    addi x30, x0, \value
    bne \register, x30, bad
    .endm
    .macro wants_word index, value
    addi x29, x0, \index
    b.sget x28, x29
    wants x28, \value
    .endm
    .org 0x10000
    # rd is the index's register
    addi x5, x0, 3
    addi x6, x0, 9
    b.sset x5, x5, x6
    wants x5, 0
    wants x6, 9
    wants_word 3, 9
    # it is the value's
    addi x5, x0, 4
    b.sset x6, x5, x6
    wants x6, 0
    wants_word 4, 9
    # index and value are one
    addi x5, x0, 5
    addi x6, x0, 77
    b.sset x6, x5, x5
    wants x6, 0
    wants_word 5, 5
    # index and value are x0
    addi x6, x0, 77
    b.sset x6, x0, x0
    wants x6, 0
    wants_word 0, 0
    # the last registers
    addi x31, x0, 31
    addi x1, x0, -7
    b.sset x1, x31, x1
    wants x1, 0
    b.sget x1, x31
    wants x1, -7
    b.sget x31, x31
    wants x31, -7
    # rd is x0, which stays 0
    addi x5, x0, 6
    addi x6, x0, 12
    b.sset x0, x5, x6
    bne x0, x0, bad
    wants_word 6, 12
    b.sget x0, x5
    bne x0, x0, bad
    # refused: rd is the index's register, the value's, or x0
    addi x5, x0, 32
    b.sset x5, x5, x6
    wants x5, -1
    b.sset x6, x5, x6
    wants x6, -1
    b.sset x0, x5, x6
    bne x0, x0, bad
    wants x5, -1
    wants_word 6, 12
    addi x10, x0, 1
    b.ret
bad:
    addi x10, x0, -1
    b.ret
