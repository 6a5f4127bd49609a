# console_putchar leaves 0 in a0 and keeps a1; a call that the hypervisor doesn't have leaves -2 and 0.
# ram 16
_start:
    addi x11, x0, 7
    addi x10, x0, 0x41
    addi x17, x0, 1
    ecall
    addi x20, x10, 0
    addi x21, x11, 0
    addi x17, x0, 99
    ecall
    addi x22, x10, 0
    addi x23, x11, 0
    addi x10, x20, 0
    jal x1, print
    addi x10, x21, 0
    jal x1, print
    addi x10, x22, 0
    jal x1, print
    addi x10, x23, 0
    jal x1, print
    jal x0, end
    .include "print.inc"
