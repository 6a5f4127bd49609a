# send_ipi reaches the harts that its mask and base name, or all, or none where one of them isn't
# there. A hart that isn't started has its software interrupt, and starts without it.
# ram 32
# harts 4
#$ turn 0 16
# to the second and the third hart
#$ turn 0 9
#$ turn 1 5
#$ turn 2 5
# to the third and the fourth, which isn't started
#$ turn 0 9
#$ turn 1 5
#$ turn 2 5
#$ turn 3 2
# to harts of which one isn't there, or to no hart
#$ turn 0 63
#$ turn 1 5
#$ turn 2 5
# the fourth starts
#$ turn 0 8
#$ turn 3 5
# to all, twice
#$ turn 0 12
#$ turn 1 5
#$ turn 2 5
#$ turn 3 5
#$ turn 0 9
#$ turn 1 5
#$ turn 2 5
#$ turn 3 5
# one is taken
#$ turn 0 6
#: start 7 0 1 P
#: start 15 0 2 P
#: out 28 1 32
#: out 33 2 32
#: out 47 1 30
#: out 52 2 32
#: out 122 1 30
#: out 127 2 30
#: start 136 0 3 P
#: out 140 3 30
#: out 157 1 32
#: out 162 2 32
#: out 167 3 32
#: out 181 1 32
#: out 186 2 32
#: out 191 3 32
#: trap 198 0 8000000000000001 P
    .include "secure.inc"
    .include "harts.inc"
    # 9 instructions
    .macro send mask, base, answer
    addi x10, x0, \mask
    addi x11, x0, \base
    send_ipi
    expect x10, \answer
    bne x11, x0, wrong
    .endm

_start:
    start_hart 1, reads
    start_hart 2, reads
    send 0b110, 0, 0
    send 0b11, 2, 0
    # the fifth hart isn't there, also behind one that is
    send 0b1, 4, -3
    send 0b10001, 0, -3
    send 0b11, 3, -3
    send -1, 0, -3
    # 2^64, which is no number of a hart
    send 0b100, -2, -3
    # no hart at all
    send 0, 9, 0
    # another function
    addi x10, x0, 1
    addi x16, x0, 1
    ecall
    expect x10, -2
    bne x11, x0, wrong
    # it had none itself
    csrrw x5, sip, x0
    expect x5, 0
    start_hart 3, reads
    send 0, -1, 0
    csrrw x5, sip, x0
    expect x5, 2
    send -1, -1, 0
    trap_to handler
    csrrwi x0, sie, 2
    csrrsi x0, sstatus, 2
    jal x0, wrong
handler:
    csrrwi x0, sip, 0
    jal x0, end

    # writes the number in its sip as a digit, and clears it
reads:
    csrrw x10, sip, x0
    addi x10, x10, 0x30
    addi x17, x0, 1
    ecall
    jal x0, reads
    .include "ends.inc"
