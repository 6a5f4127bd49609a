# What the calls to the hypervisor leave with one hart: the timer, which keeps a1; a key, of which
# none waits; the start of a hart, refused as it is no hart, at no multiple of 4, or started; and
# software interrupts, which come to hart 0 by its number and by all harts, and to no other.
# ram 32
    .include "secure.inc"
    .equ HART_START, 0x48534d
    .equ SEND_IPI, 0x735049
    .macro ask call, first, second
    lui x17, %hi(\call)
    addi x17, x17, %lo(\call)
    addi x10, x0, \first
    addi x11, x0, \second
    ecall
    .endm
_start:
    addi x16, x0, 0
    ask 0, -1, 7
    expect x10, 0
    expect x11, 7
    ask 2, 9, 7
    expect x10, -1
    expect x11, 7
    ask HART_START, 1, 0
    expect x10, -3
    expect x11, 0
    ask HART_START, 0, 2
    expect x10, -5
    ask HART_START, 0, 4
    expect x10, -6
    ask SEND_IPI, 2, 0
    expect x10, -3
    csrrs x5, sip, x0
    expect x5, 0
    ask SEND_IPI, 1, 0
    expect x10, 0
    expect x11, 0
    csrrs x5, sip, x0
    expect x5, 2
    csrrw x0, sip, x0
    ask SEND_IPI, 0, -1
    expect x10, 0
    csrrs x5, sip, x0
    expect x5, 2
    csrrw x0, sip, x0
    addi x16, x0, 1
    ask SEND_IPI, 1, 0
    expect x10, -2
    csrrs x5, sip, x0
    expect x5, 0
    jal x0, end
    .include "ends.inc"
