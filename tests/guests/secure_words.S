# Secure instructions that a mode may not execute: return, caller, offerer, sget and sset outside modules, and in
# mode U launch and evict besides.
# ram 16
    .macro outside
    .insn r 0x0b, 2, 0, x0, x0, x0
    .insn r 0x0b, 5, 0, x5, x0, x0
    .insn r 0x0b, 6, 0, x5, x6, x0
    .insn r 0x0b, 7, 0, x5, x6, x0
    .insn r 0x0b, 0, 1, x5, x6, x7
    .endm

_start:
    auipc x8, 0
    lla x5, handler
    csrrw x0, stvec, x5
    outside
    lla x5, user
    csrrw x0, sepc, x5
    sret
user:
    outside
    .insn r 0x0b, 0, 0, x5, x6, x0
    .insn r 0x0b, 3, 0, x5, x6, x0
    sret
    wfi
    sfence.vma x0, x0
    csrrs x5, sstatus, x0
    csrrs x5, cycle, x0
    csrrs x5, time, x0
    csrrs x5, instret, x0
    csrrw x0, sscratch, x0
    ecall
handler:
    csrrs x5, scause, x0
    addi x6, x0, 8
    beq x5, x6, end
    csrrs x5, sepc, x0
    addi x5, x5, 4
    csrrw x0, sepc, x5
    sret
    .include "print.inc"
