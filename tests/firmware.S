# What lies under a guest in QEMU's machine `virt`: it delegates all that mode S can take, and answers the calls of
# console_putchar, shutdown and none else.
    .equ UART, 0x10000000
    .equ FINISHER, 0x100000

_start:
    # all memory for modes S and U
    addi x5, x0, -1
    csrrw x0, 0x3b0, x5
    addi x5, x0, 0x1f
    csrrw x0, 0x3a0, x5
    # all exceptions but ECALL of mode S, the interrupts of mode S, and the counters
    addi x5, x0, -1
    slli x5, x5, 32
    xori x5, x5, -1
    addi x6, x0, 1
    slli x6, x6, 9
    xori x6, x6, -1
    and x5, x5, x6
    csrrw x0, medeleg, x5
    addi x5, x0, 0x222
    csrrw x0, mideleg, x5
    addi x5, x0, 7
    csrrw x0, mcounteren, x5
    lla x5, handler
    csrrw x0, mtvec, x5
    # MPP is mode S
    addi x5, x0, 1
    slli x5, x5, 11
    csrrw x0, mstatus, x5
    addi x5, x0, 1
    slli x5, x5, 31
    csrrw x0, mepc, x5
    addi x5, x0, 0
    addi x6, x0, 0
    mret

    .balign 4
handler:
    csrrw x0, mscratch, x5
    addi x5, x0, 1
    beq x17, x5, putchar
    addi x5, x0, 8
    beq x17, x5, shutdown
    addi x10, x0, -2
    addi x11, x0, 0
    jal x0, return
putchar:
    lui x5, %hi(UART)
    sb x10, 0(x5)
    addi x10, x0, 0
return:
    csrrs x5, mepc, x0
    addi x5, x5, 4
    csrrw x0, mepc, x5
    csrrs x5, mscratch, x0
    mret
shutdown:
    lui x5, %hi(FINISHER)
    lui x6, 5
    addi x6, x6, 0x555
    sw x6, 0(x5)
1:  jal x0, 1b
