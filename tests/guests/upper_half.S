# Addresses of the upper half, whose bits 63:39 equal bit 38, are loaded from, stored to and executed.
# ram 16
_start:
    auipc x8, 0
    lla x5, handler
    csrrw x0, stvec, x5
    ld x5, 2040(x8)
    csrrw x0, satp, x5
    # the last GiB of addresses leads to RAM
    addi x9, x0, -1
    slli x9, x9, 30
    ld x10, 2040(x9)
    jal x1, print
    addi x5, x0, 0x55
    sd x5, 1024(x9)
    ld x10, 1024(x8)
    jal x1, print
    # code there
    lla x5, there
    sub x5, x5, x8
    add x5, x5, x9
    jalr x0, 0(x5)
there:
    auipc x10, 0
    jal x1, print
    # the lowest address of the upper half leads nowhere, and the highest that isn't canonical is none
    addi x9, x0, -1
    slli x9, x9, 38
    lla x20, next
    ld x5, 0(x9)
next:
    lla x20, end
    ld x5, -8(x9)
    jal x0, end
handler:
    csrrs x10, stval, x0
    jal x1, print
    jalr x0, 0(x20)
    .include "print.inc"
    .org 2040
    .dword 0x8000000000080001
    .org 4096 + 8 * 2
    .dword 0x200000cf
    .org 4096 + 8 * 511
    .dword 0x200000cf
