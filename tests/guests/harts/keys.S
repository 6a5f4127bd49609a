# Keys wait in their order, and any hart takes the oldest. While one waits the first hart, and no
# other, has an external interrupt, which goes before a software interrupt, and that before the
# timer's; each goes to its own vector.
# ram 32
# harts 2
# no key waits
#$ turn 0 12
#$ key 41
#$ turn 0 1
#$ key 00
#$ key ff
# the first hart takes the first, and the second takes the next, without an interrupt
#$ turn 0 6
#$ turn 1 11
# the first has three interrupts at once: each is over when it is answered
#$ turn 0 50
#: start 11 0 1 P
#: key 12 41
#: key 14 00
#: key 15 ff
#: trap 50 0 8000000000000009 P
#: trap 57 0 8000000000000001 P
#: trap 62 0 8000000000000005 P
    .include "secure.inc"
    .include "harts.inc"
    .macro getchar
    addi x17, x0, 2
    ecall
    .endm

_start:
    getchar
    expect x10, -1
    start_hart 1, second
    csrrs x5, sip, x0
    expect x5, 0x200
    getchar
    expect x10, 0x41
    # the bits of the timer and of keys can't be written
    addi x5, x0, -1
    csrrw x0, sip, x5
    csrrs x5, sip, x0
    expect x5, 0x202
    # the timer is over
    addi x10, x0, 0
    addi x17, x0, 0
    ecall
    csrrs x5, sip, x0
    expect x5, 0x222
    lla x5, vectors + 1
    csrrw x0, stvec, x5
    addi x5, x0, 0x222
    csrrw x0, sie, x5
    csrrsi x0, sstatus, 2
    # here it is interrupted, three times
interrupted:
    expect x21, 0xff
    expect x20, 3
    csrrs x5, sip, x0
    expect x5, 0
    getchar
    expect x10, -1
    jal x0, end

second:
    addi x5, x0, 0x222
    csrrw x0, sie, x5
    csrrsi x0, sstatus, 2
    csrrs x6, sip, x0
    expect x6, 0
    getchar
    expect x10, 0
    jal x0, .

external:
    getchar
    addi x21, x10, 0
    addi x20, x20, 1
    sret
software:
    csrrwi x0, sip, 0
    addi x20, x20, 1
    sret
timer:
    addi x10, x0, -1
    addi x17, x0, 0
    ecall
    addi x20, x20, 1
    sret

    .balign 4
vectors:
    jal x0, wrong
    jal x0, software
    .org vectors + 4 * 5
    jal x0, timer
    .org vectors + 4 * 9
    jal x0, external
    .include "ends.inc"
