# A software interrupt is taken where sie, sip and sstatus have it, at its vector, and not before.
# ram 16
_start:
    auipc x8, 0
    lla x5, vectors
    addi x5, x5, 1
    csrrw x0, stvec, x5
    csrrwi x0, sip, 2
    csrrwi x0, sstatus, 2
    # not enabled in sie
    csrrwi x0, sie, 0x10
    csrrwi x0, sstatus, 0
    csrrwi x0, sie, 2
    # not enabled in sstatus
    addi x5, x0, 0
    # in mode U it is taken at once
    lla x5, user
    csrrw x0, sepc, x5
    sret
user:
    addi x0, x0, 0
    ecall
back:
    # SIE and SPIE are clear here: SPIE takes the place of SIE, and SRET gives it back
    csrrs x10, sstatus, x0
    jal x1, print
    csrrwi x0, sip, 2
    csrrwi x0, sstatus, 2
    addi x10, x6, 0
    jal x1, print
    csrrs x10, sstatus, x0
    jal x1, print
    jal x0, end
    .balign 4
vectors:
    jal x0, exception
    jal x0, software
exception:
    lla x5, back
    jalr x0, 0(x5)
software:
    csrrs x6, scause, x0
    csrrwi x0, sip, 0
    csrrs x10, sip, x0
    csrrs x7, sepc, x0
    sret
    .include "print.inc"
