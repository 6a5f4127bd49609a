# Outside the modules nobody stores or reads words, in mode S or U, also where a module has some and
# the word is one that there isn't: each try is an illegal instruction, which leaves its register and
# the words.
# ram 32
#: launch N 0 1 I
#: call N 0 0 1 0000000080010000
#: sset N 0 1 0
#: ret N 0 1 0 P
#: trap N 0 0000000000000002 P
#: trap N 0 0000000000000002 P
#: trap N 0 0000000000000002 P
#: trap N 0 0000000000000002 P
#: trap N 0 0000000000000002 P
#: trap N 0 0000000000000002 P
#: trap N 0 0000000000000002 P
#: trap N 0 0000000000000002 P
#: trap N 0 0000000000000008 P
#: call N 0 0 1 0000000080010000
#: ret N 0 1 0 P
    .include "secure.inc"
    .include "words.inc"
    .macro tries
    addi x5, x0, 55
    b.sget x5, x0
    b.sset x5, x0, x6
    addi x6, x0, 32
    b.sget x5, x6
    b.sset x5, x6, x6
    .endm
_start:
    trap_to behind_it
    lla x7, text
    b.launch x18, x7
    lla x19, _start + 0x10000
    stores 0, 11
    tries
    expect x5, 55
    lla x7, user
    csrrw x0, sepc, x7
    sret
user:
    tries
    ecall
# goes on behind it, and after the ecall in mode S
behind_it:
    csrrs x7, scause, x0
    addi x7, x7, -8
    beq x7, x0, done
    addi x7, x7, 6
    bne x7, x0, wrong
    csrrs x7, stval, x0
    bne x7, x0, wrong
    csrrs x7, sepc, x0
    addi x7, x7, 4
    csrrw x0, sepc, x7
    sret
done:
    expect x5, 55
    reads 0, 11
    jal x0, end
    .include "ends.inc"
    .org 0x8000
text:
    segment 1, 1, 0, 0x80010000
    page 0x80010, PRIVATE, 5
    .org 0x10000
    keeper
