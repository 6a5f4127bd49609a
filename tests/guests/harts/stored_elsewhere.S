# A module stores a word on one hart. On another it reads that and stores a second, is evicted and
# launched again, and on the first it reads both.
# ram 32
# harts 2
#$ turn 0 23
#$ turn 1 39
#: start N 0 1 P
#: launch N 0 1 I
#: call N 0 0 1 0000000080010000
#: sset N 0 1 0
#: ret N 0 1 0 P
#: call N 1 0 1 0000000080010000
#: ret N 1 1 0 P
#: call N 1 0 1 0000000080010000
#: sset N 1 1 31
#: ret N 1 1 0 P
#: evict N 1 1 1
#: launch N 1 2 I
#: call N 0 0 2 0000000080010000
#: ret N 0 2 0 P
#: call N 0 0 2 0000000080010000
#: ret N 0 2 0 P
    .include "secure.inc"
    .include "harts.inc"
    .include "words.inc"
_start:
    trap_to wrong
    start_hart 1, second
    lla x19, _start + 0x10000
    lla x7, text
    b.launch x18, x7
    stores 0, 11
    # the second has its turns now
    addi x18, x0, 2
    reads 0, 11
    reads 31, 12
    jal x0, end

second:
    trap_to wrong
    lla x19, _start + 0x10000
    lla x7, text
    addi x18, x0, 1
    reads 0, 11
    stores 31, 12
    b.evict x5, x18
    lla x8, code
    ld x20, 0(x8)
    ld x21, 8(x8)
    ld x22, 16(x8)
    sd x20, 0(x19)
    sd x21, 8(x19)
    sd x22, 16(x19)
    b.launch x18, x7
    jal x0, .
    .include "ends.inc"
    .org 1024
code:
    keeper
    .org 0x8000
text:
    segment 1, 1, 0, 0x80010000
    page 0x80010, PRIVATE, 5
    .org 0x10000
    keeper
