# Each CSR of the supervisor is written and read back, by each of the CSR instructions.
# ram 16
    .macro back csr
    csrrs x10, \csr, x0
    jal x1, print
    .endm

    .macro ones csr
    csrrw x0, \csr, x5
    back \csr
    csrrw x0, \csr, x0
    back \csr
    .endm

_start:
    # of sstatus SIE, SPIE, SPP, SUM and MXR
    lui x5, 0xc0
    addi x5, x5, 0x122
    ones sstatus
    # bits 1:0 of sepc aren't there
    addi x5, x0, -4
    ones sepc
    addi x5, x0, -1
    ones sie
    ones sscratch
    ones scause
    ones stval
    ones sip
    # MODE 15 of satp isn't there, and the write has no effect
    csrrw x0, satp, x5
    back satp
    # of stvec bit 1 is a reserved MODE's, and stays clear here
    addi x5, x0, -3
    ones stvec
    # each instruction once more, on sscratch
    csrrwi x0, sscratch, 21
    back sscratch
    csrrsi x10, sscratch, 10
    jal x1, print
    csrrci x10, sscratch, 5
    jal x1, print
    addi x5, x0, 6
    csrrc x10, sscratch, x5
    jal x1, print
    csrrs x10, sscratch, x5
    jal x1, print
    csrrw x10, sscratch, x5
    jal x1, print
    back sscratch
    jal x0, end
    .include "print.inc"
