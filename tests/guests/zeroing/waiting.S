# A module waits for another, which a timer stops. Where the first is zeroed, its pc stays: it goes
# on behind its call, where its code is zeros. Where the second is zeroed the first isn't.
# ram 32
#: launch 5 0 1 I
#: launch 10 0 2 I
#: call 24 0 0 1 0000000080010000
#: call 28 0 1 2 0000000080012000
#: stop 30 0 2 0000000080012004
#: trap 30 0 8000000000000005 0000000080012004
#: refuse N 0 evict -2
#: refuse N 0 call -4
#: resume 46 0 2 0000000080012004
#: ret 47 0 2 1 0000000080010010
#: ret N 0 1 0 P
# the first, where it runs, and where the second does, or is stopped, or has gone on
# zeroed 1@28 keeps all
# zeroed 1@29 keeps 10
#| stop 48 0 1 0000000080010010
#| trap 48 0 0000000000000002 0000000080010010
#| out N 0 21
# zeroed 1@31 keeps 10
#| stop 48 0 1 0000000080010010
#| trap 48 0 0000000000000002 0000000080010010
#| out N 0 21
# zeroed 1@47 keeps 10
#| stop 48 0 1 0000000080010010
#| trap 48 0 0000000000000002 0000000080010010
#| out N 0 21
# zeroed 1@48 keeps all
# the second, where the first runs and is to call it, where it runs, is stopped, and is done
# zeroed 2@28 keeps 4
#| stop 29 0 2 0000000080012000
#| trap 29 0 0000000000000002 0000000080012000
#| out N 0 21
# zeroed 2@29 keeps all
# zeroed 2@31 keeps 9
#| stop 47 0 2 0000000080012004
#| trap 47 0 0000000000000002 0000000080012004
#| out N 0 21
# zeroed 2@48 keeps all
    .include "secure.inc"
_start:
    trap_to handler
    lla x7, text
    b.launch x5, x7
    expect x5, 1
    lla x7, other
    b.launch x6, x7
    expect x6, 2
    addi x7, x0, 32
    csrrs x0, sie, x7
    csrrsi x0, sstatus, 2
    lla x9, _start + 0x10000
    lla x11, _start + 0x12000
    csrrs x10, time, x0
    # from the reading to the second word of the second module
    addi x10, x10, 10
    addi x17, x0, 0
    ecall
    b.call x7, x5, x9
    expect x10, 77
    expect x5, 1
    jal x0, end
handler:
    csrrs x5, scause, x0
    bge x5, x0, wrong
    addi x10, x0, -1
    addi x17, x0, 0
    ecall
    addi x5, x0, 1
    b.evict x6, x5
    expect x6, -2
    lla x9, _start + 0x10000
    b.call x6, x5, x9
    expect x6, -4
    sret
    .include "ends.inc"
    .include "module_text.inc"
    .org 0x9000
other:
    segment 1, 1, 0, 0x80012000
    page 0x80012, PRIVATE, 5
    # 7 more than the other gives, where it has its own register again
    .org 0x10000
    addi x8, x0, 2
    addi x9, x0, 7
    addi x0, x0, 0
    b.call x5, x8, x11
    add x10, x10, x9
    b.ret
    .org 0x11000
    .dword 0x1122334455667788
    .org 0x12000
    addi x10, x0, 70
    b.ret
