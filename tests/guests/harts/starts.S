# hart_start and its refusals in their order. A hart that starts has its number and the given value,
# and else zeros in its registers; its CSRs are as at boot, whatever reached it before. It starts at
# any multiple of 4.
# ram 32
# harts 4
#$ turn 0 134
#$ turn 1 60
#$ turn 2 2
#$ turn 1 9
#$ turn 3 63
#$ turn 0 3
#: start 111 0 1 P
#: start 131 0 2 0000000000001000
#: out 193 1 31
#: trap 194 2 0000000000000001 0000000000001000
#: trap 195 2 0000000000000001 0000000000000000
#: start 204 1 3 P
#: out 267 3 33
    .include "secure.inc"
    .include "harts.inc"
    # hart_start of x8 at the label gives this, and 0
    .macro try at, answer
    addi x10, x8, 0
    lla x11, \at
    hart_start
    expect x10, \answer
    bne x11, x0, wrong
    .endm

_start:
    # there is no such hart
    addi x8, x0, 4
    try second, -3
    try second + 2, -3
    addi x8, x0, -1
    try second, -3
    # 2^32 + 1
    addi x8, x0, 1
    slli x8, x8, 32
    addi x8, x8, 1
    try second, -3
    # not a multiple of 4
    addi x8, x0, 1
    try second + 2, -5
    try second + 1, -5
    addi x8, x0, 0
    try second + 2, -5
    # it is started
    try _start, -6
    # another function
    addi x10, x0, 1
    lla x11, second
    addi x16, x0, 1
    ecall
    expect x10, -2
    bne x11, x0, wrong
    # a software interrupt, which the hart doesn't have any more when it starts
    addi x10, x0, 2
    addi x11, x0, 0
    send_ipi
    expect x10, 0
    addi x12, x0, 7
    addi x8, x0, 1
    try second, 0
    try second, -6
    # outside RAM
    addi x8, x0, 2
    addi x10, x8, 0
    lui x11, 1
    hart_start
    expect x10, 0
    jal x0, end

# all registers but x10 and x11 are zeros, and so are CSRs and the count of instructions
second:
    .irp n, 2,3,4,5,6,7,8,9,12,13,14,15,16,17,18,19,20,21,22,23,24,25,26,27,28,29,30,31
    or x1, x1, x\n
    .endr
    csrrs x6, instret, x0
    addi x6, x6, -28
    or x1, x1, x6
    .irp csr, sie, stvec, sscratch, sepc, scause, stval, sip, satp
    csrrs x6, \csr, x0
    or x1, x1, x6
    .endr
    bne x1, x0, wrong
    csrrs x6, sstatus, x0
    addi x7, x0, 2
    slli x7, x7, 32
    bne x6, x7, wrong
    addi x8, x10, 0
    # 7 for the first that starts here, and -1 for the other
    addi x7, x0, 1
    beq x8, x7, 1f
    expect x8, 3
    addi x11, x11, 8
1:  expect x11, 7
    addi x10, x8, 0x30
    addi x17, x0, 1
    ecall
    bne x8, x7, .
    start_hart 3, second, -1
    jal x0, .
    .include "ends.inc"
