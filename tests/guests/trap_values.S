# stval is 0 for a breakpoint, an illegal instruction and calls of mode U, and an address where one is at fault.
# ram 16
_start:
    auipc x8, 0
    addi x9, x0, -1
    lla x5, handler
    csrrw x0, stvec, x5
    csrrw x0, stval, x9
    ebreak
    csrrw x0, stval, x9
    .word 0
    csrrw x0, stval, x9
    csrrw x0, instret, x9
    csrrw x0, stval, x9
    ld x0, 1(x8)
    csrrw x0, stval, x9
    sw x0, 2(x8)
    csrrw x0, stval, x9
    lb x0, 0(x0)
    csrrw x0, stval, x9
    sb x0, -1(x0)
    # in mode U, from where the handler comes back
    csrrw x0, stval, x9
    lla x5, user
    csrrw x0, sepc, x5
    sret
user:
    ecall
    csrrs x10, sscratch, x0
    addi x20, x0, 1
    ecall
handler:
    csrrs x10, scause, x0
    jal x1, print
    csrrs x10, stval, x0
    jal x1, print
    bne x20, x0, end
    csrrw x0, stval, x9
    csrrs x5, sepc, x0
    addi x5, x5, 4
    csrrw x0, sepc, x5
    sret
    .include "print.inc"
