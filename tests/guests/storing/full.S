# Sixty-four modules, one after the other, store a word each, and the first of them the number 0: all
# 64 identities have words then. One more is refused, for a word that there isn't with -1 first, and
# reads zeros. The others have their words and may store more. The module that was refused a word
# that there isn't, before all, took no place.
# ram 32
    .include "secure.inc"
    .include "words.inc"
_start:
    trap_to wrong
    lla x7, text
    lla x19, _start + 0x10000
    lla x8, code
    ld x20, 0(x8)
    ld x21, 8(x8)
    ld x22, 16(x8)
    addi x25, x0, 64
    jal x1, launch
    stores 32, 1, -1
    b.evict x5, x18
    addi x25, x0, 0
    addi x26, x0, 64
next:
    # its number, in the word of its number without the highest bit
    jal x1, launch
    andi x10, x25, 31
    addi x11, x25, 0
    addi x12, x0, 0
    b.call x5, x18, x19
    bne x10, x0, wrong
    b.evict x5, x18
    addi x25, x25, 1
    bne x25, x26, next
    jal x1, launch
    stores 0, 1, -2
    stores 31, 1, -2
    stores 32, 1, -1
    stores -1, 1, -1
    reads 0, 0
    reads 31, 0
    b.evict x5, x18
    # the first
    addi x25, x0, 0
    jal x1, launch
    reads 0, 0
    stores 0, 5
    stores 31, 6
    stores 32, 1, -1
    reads 0, 5
    b.evict x5, x18
    # the last
    addi x25, x0, 63
    jal x1, launch
    reads 31, 63
    stores 31, 0
    b.evict x5, x18
    # words that are all 0 are words
    addi x25, x0, 64
    jal x1, launch
    stores 0, 1, -2
    jal x0, end
# launches the module of the number in x25
launch:
    sd x20, 0(x19)
    sd x21, 8(x19)
    sd x22, 16(x19)
    sw x25, 20(x19)
    b.launch x18, x7
    bge x0, x18, wrong
    jalr x0, 0(x1)
    .include "ends.inc"
    .org 1024
code:
    keeper
    .org 0x8000
text:
    segment 1, 1, 0, 0x80010000
    page 0x80010, PRIVATE, 5
