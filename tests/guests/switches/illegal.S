# What a module may not execute: every SYSTEM instruction, launch, evict, and words that are none.
# Each is tried by a module of its own.
# ram 32
#: launch N 0 1 I
#: call N 0 0 1 0000000080010000
#: stop N 0 1 0000000080010004
#: trap N 0 0000000000000002 0000000080010004
#: launch N 0 2 I
#: call N 0 0 2 0000000080011000
#: stop N 0 2 0000000080011004
#: trap N 0 0000000000000002 0000000080011004
#: launch N 0 3 I
#: call N 0 0 3 0000000080012000
#: stop N 0 3 0000000080012004
#: trap N 0 0000000000000002 0000000080012004
#: launch N 0 4 I
#: call N 0 0 4 0000000080013000
#: stop N 0 4 0000000080013004
#: trap N 0 0000000000000002 0000000080013004
#: launch N 0 5 I
#: call N 0 0 5 0000000080014000
#: stop N 0 5 0000000080014004
#: trap N 0 0000000000000002 0000000080014004
#: launch N 0 6 I
#: call N 0 0 6 0000000080015000
#: stop N 0 6 0000000080015004
#: trap N 0 0000000000000002 0000000080015004
#: launch N 0 7 I
#: call N 0 0 7 0000000080016000
#: stop N 0 7 0000000080016004
#: trap N 0 0000000000000002 0000000080016004
#: launch N 0 8 I
#: call N 0 0 8 0000000080017000
#: stop N 0 8 0000000080017004
#: trap N 0 0000000000000002 0000000080017004
#: launch N 0 9 I
#: call N 0 0 9 0000000080018000
#: stop N 0 9 0000000080018004
#: trap N 0 0000000000000002 0000000080018004
#: launch N 0 10 I
#: call N 0 0 10 0000000080019000
#: stop N 0 10 0000000080019004
#: trap N 0 0000000000000002 0000000080019004
#: launch N 0 11 I
#: call N 0 0 11 000000008001a000
#: stop N 0 11 000000008001a004
#: trap N 0 0000000000000002 000000008001a004
    .include "secure.inc"
_start:
    trap_to handler
next:
    # the number of words that were tried
    csrrs x8, sscratch, x0
    addi x31, x0, 11
    beq x8, x31, end
    slli x9, x8, 2
    lla x7, words
    add x7, x7, x9
    lwu x6, 0(x7)
    slli x9, x8, 12
    lla x7, _start + 0x10000
    add x7, x7, x9
    sw x6, 4(x7)
    lla x9, text
    sd x7, 16(x9)
    srli x6, x7, 12
    sd x6, 80(x9)
    b.launch x5, x9
    addi x8, x8, 1
    bne x5, x8, wrong
    csrrw x0, sscratch, x8
    b.call x6, x5, x7
    jal x0, wrong
handler:
    csrrs x5, scause, x0
    expect x5, 2
    csrrs x5, stval, x0
    bne x5, x0, wrong
    jal x0, next
    .include "ends.inc"
words:
    ecall
    ebreak
    sret
    wfi
    sfence.vma x0, x0
    csrrs x5, time, x0
    csrrw x0, sscratch, x0
    b.launch x5, x6
    b.evict x5, x6
    .word 0
    .word 0xffffffff
    .org 0x8000
text:
    segment 1, 1, 0, 0
    page 0, PRIVATE, 5
    .irp page, 16,17,18,19,20,21,22,23,24,25,26
    .org 0x1000 * \page
    addi x0, x0, 0
    .endr
