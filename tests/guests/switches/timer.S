# A timer stops a module whose registers are their numbers. No register is left, and the status
# tells that interrupts were enabled in mode S. A return to the module's pc resumes it, and every
# register is back.
# ram 32
#: launch N 0 1 I
#: call N 0 0 1 0000000080010000
#: stop N 0 1 0000000080010008
#: trap N 0 8000000000000005 0000000080010008
#: resume N 0 1 0000000080010008
#: ret N 0 1 0 P
    .include "secure.inc"
_start:
    trap_to handler
    lla x7, text
    b.launch x18, x7
    lla x9, _start + 0x10000
    csrrwi x0, sie, 0
    addi x5, x0, 32
    csrrs x0, sie, x5
    csrrsi x0, sstatus, 2
    csrrs x10, time, x0
    # from the reading to the module's third word
    addi x10, x10, 38
    addi x17, x0, 0
    ecall
    b.call x5, x18, x9
    expect x10, 1
    jal x0, end
    .include "ends.inc"
    .org 0x1000
handler:
    .irp n, 2,3,4,5,6,7,8,9,10,11,12,13,14,15,16,17,18,19,20,21,22,23,24,25,26,27,28,29,30,31
    or x1, x1, x\n
    .endr
    bne x1, x0, wrong
    csrrs x5, stval, x0
    bne x5, x0, wrong
    csrrs x5, sip, x0
    expect x5, 32
    csrrs x5, sstatus, x0
    andi x5, x5, 0x122
    expect x5, 0x120
    csrrs x5, scause, x0
    slli x6, x5, 1
    expect x6, 10
    bge x5, x0, wrong
    addi x10, x0, -1
    addi x17, x0, 0
    ecall
    sret
    .include "module_text.inc"
    .org 0x10000
    jal x0, prepare
    .org 0x10008
    .irp n, 1,2,3,4,5,6,7,8,9,10,11,12,13,14,15,16,17,18,19,20,21,22,23,24,25,26,27,28,29,30,31
    addi x\n, x\n, -\n
    bne x\n, x0, bad
    .endr
    addi x10, x0, 1
    b.ret
bad:
    addi x10, x0, -1
    b.ret
prepare:
    .irp n, 1,2,3,4,5,6,7,8,9,10,11,12,13,14,15,16,17,18,19,20,21,22,23,24,25,26,27,28,29,30,31
    addi x\n, x0, \n
    .endr
    jal x0, _start + 0x10008
