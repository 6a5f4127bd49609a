# A module is stopped by a software interrupt from another hart. Then both harts stand where it was
# stopped: the one that comes first resumes it, and the other is denied the running module's page.
# ram 32
# harts 2
#$ turn 0 22
#$ turn 1 9
# the first hart is interrupted, and goes back to the module's pc
#$ turn 0 5
#$ turn 1 3
# now both stand there
#$ turn 0 1
#$ turn 1 1
#: launch 5 0 1 I
#: start 13 0 1 P
#: call 19 0 0 1 0000000080010000
#: stop 31 0 1 0000000080010008
#: trap 31 0 8000000000000001 0000000080010008
#: resume 39 0 1 0000000080010008
#: deny 40 1 0 fetch 0000000080010
#: trap 40 1 0000000000000001 0000000080010008
#: ret 41 0 1 0 P
# where it is stopped and zeroed, it is resumed like this, and then its code is zeros
# zeroed 1@31 keeps all
# zeroed 1@32 keeps 8
#| stop 41 0 1 0000000080010008
#| trap 41 0 0000000000000002 0000000080010008
#| out N 0 21
# zeroed 1@39 keeps 8
#| stop 41 0 1 0000000080010008
#| trap 41 0 0000000000000002 0000000080010008
#| out N 0 21
# zeroed 1@40 keeps all
    .include "secure.inc"
    .include "harts.inc"
_start:
    trap_to handler
    lla x7, text
    b.launch x18, x7
    start_hart 1, second
    csrrwi x0, sie, 2
    csrrsi x0, sstatus, 2
    lla x9, _start + 0x10000
    addi x20, x0, 77
    b.call x5, x18, x9
    # the module's answer, and the caller's own registers
    expect x10, 1
    expect x11, 2
    expect x5, 0
    expect x18, 1
    expect x20, 77
    jal x0, end
second:
    trap_to handler
    addi x10, x0, 1
    addi x11, x0, 0
    send_ipi
    lla x5, _start + 0x10008
    jalr x0, 0(x5)
handler:
    # an interrupt is over when its bit is cleared; a hart that is denied waits
    csrrs x5, scause, x0
    bge x5, x0, denied
    csrrwi x0, sip, 0
    sret
denied:
    addi x5, x5, -1
    bne x5, x0, wrong
    jal x0, .
    .include "ends.inc"
    .include "module_text.inc"
    .org 0x10000
    addi x10, x0, 1
    addi x11, x0, 2
    b.ret
