# A module has the words 0 to 31. To store any other is refused, whichever bit of the index is the
# one too many, and leaves all words as they were; to read any other gives 0.
# ram 32
#: launch N 0 1 I
#: call N 0 0 1 0000000080010000
#: refuse N 0 sset -1
#: sset N 0 1 0
#: sset N 0 1 31
#: refuse N 0 sset -1
#: refuse N 0 sset -1
#: refuse N 0 sset -1
#: refuse N 0 sset -1
#: refuse N 0 sset -1
#: refuse N 0 sset -1
#: refuse N 0 sset -1
#: refuse N 0 sset -1
#: ret N 0 1 0 P
    .include "secure.inc"
_start:
    trap_to wrong
    lla x7, text
    b.launch x5, x7
    lla x9, _start + 0x10000
    b.call x6, x5, x9
    bne x6, x0, wrong
    expect x10, 1
    jal x0, end
    .include "ends.inc"
    .include "module_text.inc"
    # x5 is the index, x6 and x7 are the numbers of the first word and the last
    .macro none
    addi x8, x0, 9
    b.sset x9, x5, x8
    addi x30, x0, -1
    bne x9, x30, bad
    addi x9, x0, 9
    b.sget x9, x5
    bne x9, x0, bad
    b.sget x9, x0
    bne x9, x6, bad
    addi x30, x0, 31
    b.sget x9, x30
    bne x9, x7, bad
    .endm
    .org 0x10000
    # before it has words too
    addi x5, x0, 32
    none
    addi x6, x0, 66
    b.sset x9, x0, x6
    bne x9, x0, bad
    addi x7, x0, 77
    addi x5, x0, 31
    b.sset x9, x5, x7
    bne x9, x0, bad
    addi x5, x0, 32
    none
    addi x5, x0, 63
    none
    addi x5, x0, 64
    none
    addi x5, x0, 256
    none
    # their low bits are those of the first word and the last
    addi x5, x0, 1
    slli x5, x5, 32
    none
    addi x5, x0, 1
    slli x5, x5, 63
    none
    addi x5, x0, -32
    none
    addi x5, x0, -1
    none
    addi x10, x0, 1
    b.ret
bad:
    addi x10, x0, -1
    b.ret
