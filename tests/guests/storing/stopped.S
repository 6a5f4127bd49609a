# A timer stops a module between its b.sget and its b.sset, which isn't made then. While it is
# stopped another module stores, and it goes on with what it read. What it stored stays when it
# traps, and when it is evicted and launched again.
# ram 32
#: launch N 0 1 I
#: launch N 0 2 I
#: call N 0 0 1 0000000080010000
#: sset N 0 1 0
#: ret N 0 1 0 P
#: call N 0 0 1 0000000080010000
#: stop N 0 1 0000000080010008
#: trap N 0 8000000000000005 0000000080010008
#: refuse N 0 call -4
#: call N 0 0 2 0000000080012000
#: sset N 0 2 0
#: ret N 0 2 0 P
#: resume N 0 1 0000000080010008
#: sset N 0 1 0
#: ret N 0 1 0 P
#: call N 0 0 1 0000000080010000
#: sset N 0 1 0
#: stop N 0 1 0000000080010014
#: trap N 0 0000000000000002 0000000080010014
#: evict N 0 1 1
#: launch N 0 3 I
#: call N 0 0 3 0000000080010000
#: sset N 0 3 0
#: ret N 0 3 0 P
    .include "secure.inc"
    # adds 1 to its first word and answers that, or traps
    .macro counting
    b.sget x5, x0
    addi x11, x5, 1
    b.sset x10, x0, x11
    bne x12, x0, 1f
    b.ret
1:  .word 0
    .endm
    .macro counts count
    b.call x5, x18, x19
    bne x5, x0, wrong
    expect x10, 0
    expect x11, \count
    .endm
_start:
    trap_to handler
    lla x7, text
    b.launch x18, x7
    lla x7, other
    b.launch x5, x7
    expect x5, 2
    lla x19, _start + 0x10000
    addi x12, x0, 0
    counts 1
    addi x5, x0, 32
    csrrs x0, sie, x5
    csrrsi x0, sstatus, 2
    csrrs x10, time, x0
    # from the reading to the module's third instruction
    addi x10, x10, 7
    addi x17, x0, 0
    ecall
    counts 2
    addi x12, x0, 1
    b.call x5, x18, x19
    jal x0, wrong
handler:
    csrrs x5, scause, x0
    bge x5, x0, trapped
    addi x10, x0, -1
    addi x17, x0, 0
    ecall
    addi x18, x0, 1
    lla x19, _start + 0x10000
    b.call x5, x18, x19
    expect x5, -4
    addi x18, x0, 2
    lla x19, _start + 0x12000
    counts 1
    sret
trapped:
    addi x18, x0, 1
    b.evict x5, x18
    lla x19, _start + 0x10000
    lla x8, code
    ld x5, 0(x8)
    sd x5, 0(x19)
    ld x5, 8(x8)
    sd x5, 8(x19)
    ld x5, 16(x8)
    sd x5, 16(x19)
    lla x7, text
    b.launch x18, x7
    addi x12, x0, 0
    counts 4
    jal x0, end
    .include "ends.inc"
    .org 1024
code:
    counting
    .org 0x8000
text:
    segment 1, 1, 0, 0x80010000
    page 0x80010, PRIVATE, 5
    .org 0x9000
other:
    segment 1, 1, 0, 0x80012000
    page 0x80012, PRIVATE, 5
    .org 0x10000
    counting
    .org 0x12000
    counting
