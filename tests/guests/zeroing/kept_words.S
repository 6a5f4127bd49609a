# A module's words are no secrets of its: zeroed while it is idle, or not, it is evicted and launched
# again, and reads what it stored.
# ram 32
#: launch N 0 1 I
#: call N 0 0 1 0000000080010000
#: sset N 0 1 5
#: ret 14 0 1 0 P
#: evict 18 0 1 1
#: launch N 0 2 I
#: call N 0 0 2 0000000080010000
#: ret N 0 2 0 P
# zeroed 1@15 keeps all
# zeroed 1@18 keeps all
    .include "secure.inc"
    .include "words.inc"
_start:
    trap_to wrong
    lla x7, text
    b.launch x18, x7
    lla x19, _start + 0x10000
    stores 5, 50
    b.evict x5, x18
    lla x8, code
    ld x20, 0(x8)
    ld x21, 8(x8)
    ld x22, 16(x8)
    sd x20, 0(x19)
    sd x21, 8(x19)
    sd x22, 16(x19)
    b.launch x18, x7
    expect x18, 2
    reads 5, 50
    jal x0, end
    .include "ends.inc"
    .org 1024
code:
    keeper
    .org 0x8000
text:
    segment 1, 1, 0, 0x80010000
    page 0x80010, PRIVATE, 5
    .org 0x10000
    keeper
