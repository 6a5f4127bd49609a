# A module is evicted and launched again from the same text and page: with another id it has the
# words that it kept. With one bit of its page changed it is another module, without words; and it is
# the first again where the bit is back.
# ram 32
#: launch N 0 1 I
#: call N 0 0 1 0000000080010000
#: sset N 0 1 7
#: ret N 0 1 0 P
#: evict N 0 1 1
#: launch N 0 2 I
#: call N 0 0 2 0000000080010000
#: ret N 0 2 0 P
#: call N 0 0 2 0000000080010000
#: sset N 0 2 8
#: ret N 0 2 0 P
#: evict N 0 2 1
#: launch N 0 3 I
#: call N 0 0 3 0000000080010000
#: ret N 0 3 0 P
#: call N 0 0 3 0000000080010000
#: sset N 0 3 7
#: ret N 0 3 0 P
#: evict N 0 3 1
#: launch N 0 4 I
#: call N 0 0 4 0000000080010000
#: ret N 0 4 0 P
#: call N 0 0 4 0000000080010000
#: ret N 0 4 0 P
    .include "secure.inc"
    .include "words.inc"
_start:
    trap_to wrong
    lla x7, text
    lla x19, _start + 0x10000
    # an eviction leaves zeros, so the page is written anew
    ld x20, 0(x19)
    ld x21, 8(x19)
    ld x22, 16(x19)
    .macro again
    b.evict x5, x18
    expect x5, 0
    ld x5, 0(x19)
    bne x5, x0, wrong
    sd x20, 0(x19)
    sd x21, 8(x19)
    sd x22, 16(x19)
    b.launch x18, x7
    .endm
    b.launch x18, x7
    expect x18, 1
    stores 7, 70
    again
    expect x18, 2
    reads 7, 70
    stores 8, 80
    # a bit behind the code
    addi x23, x0, 1
    slli x23, x23, 63
    xor x22, x22, x23
    again
    expect x18, 3
    reads 7, 0
    stores 7, 71
    xor x22, x22, x23
    again
    expect x18, 4
    reads 7, 70
    reads 8, 80
    jal x0, end
    .include "ends.inc"
    .org 0x8000
text:
    segment 1, 1, 0, 0x80010000
    page 0x80010, PRIVATE, 5
    .org 0x10000
    keeper
