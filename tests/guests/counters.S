# instret counts SRET and calls and no trap; cycle and time count all events.
# ram 16
_start:
    auipc x8, 0
    lla x5, handler
    csrrw x0, stvec, x5
    lla x5, back
    csrrw x0, sepc, x5
    addi x5, x0, 0x100
    csrrw x0, sstatus, x5
    # over an SRET: it and the first read
    csrrs x20, instret, x0
    sret
back:
    csrrs x21, instret, x0
    sub x10, x21, x20
    jal x1, print
    # over a trap and the handler's four: the first read and they
    csrrs x20, instret, x0
    csrrs x22, cycle, x0
    ebreak
    csrrs x23, cycle, x0
    csrrs x21, instret, x0
    sub x10, x21, x20
    jal x1, print
    sub x10, x23, x22
    jal x1, print
    # over a call of the hypervisor that it doesn't have
    addi x17, x0, 99
    csrrs x20, instret, x0
    ecall
    csrrs x21, instret, x0
    sub x10, x21, x20
    jal x1, print
    # cycle and time are one clock
    csrrs x20, cycle, x0
    csrrs x21, time, x0
    sub x10, x21, x20
    jal x1, print
    jal x0, end
handler:
    csrrs x5, sepc, x0
    addi x5, x5, 4
    csrrw x0, sepc, x5
    sret
    .include "print.inc"
