# Loads, stores and fetches from a module's pages by the untrusted world, without translation: in
# mode S and in mode U each is denied, but one that is misaligned traps as that. Pages beside them
# are open.
# ram 32
#: launch N 0 1 I
#: deny N 0 0 load 0000000080010
#: trap N 0 0000000000000005 P
#: deny N 0 0 load 0000000080011
#: trap N 0 0000000000000005 P
#: deny N 0 0 store 0000000080010
#: trap N 0 0000000000000007 P
#: deny N 0 0 store 0000000080011
#: trap N 0 0000000000000007 P
#: trap N 0 0000000000000004 P
#: trap N 0 0000000000000006 P
#: deny N 0 0 fetch 0000000080010
#: trap N 0 0000000000000001 0000000080010000
#: deny N 0 0 fetch 0000000080010
#: trap N 0 0000000000000001 0000000080010004
#: deny N 0 0 fetch 0000000080011
#: trap N 0 0000000000000001 0000000080011000
#: deny N 0 0 load 0000000080011
#: trap N 0 0000000000000005 P
#: deny N 0 0 store 0000000080011
#: trap N 0 0000000000000007 P
#: deny N 0 0 fetch 0000000080010
#: trap N 0 0000000000000001 0000000080010000
#: trap N 0 0000000000000008 P
    .include "secure.inc"
    # the handler checks stval, and goes on behind the instruction
    .macro fails value, instruction:vararg
    lla x28, \value
    lla x29, behind\@
    \instruction
    jal x0, wrong
behind\@:
    .endm

_start:
    trap_to handler
    lla x8, text
    b.launch x5, x8
    expect x5, 1
    lla x8, _start + 0x10000
    lla x9, _start + 0x11000
    lla x18, _start + 0xfff8
    lla x19, _start + 0x12000
    lla x20, _start + 0x11800
    fails _start + 0x10003, lb x6, 3(x8)
    fails _start + 0x11ff8, ld x6, 0x7f8(x20)
    fails _start + 0x10004, sw x6, 4(x8)
    fails _start + 0x11000, sd x6, 0(x9)
    fails _start + 0x11001, ld x6, 1(x9)
    fails _start + 0x10002, sw x6, 2(x8)
    fails _start + 0x10000, jalr x1, 0(x8)
    fails _start + 0x10004, jalr x1, 4(x8)
    fails _start + 0x11000, jalr x1, 0(x9)
    expect x6, 0
    addi x7, x0, 5
    sd x7, 0(x18)
    sd x7, 0(x19)
    ld x6, 0(x18)
    expect x6, 5
    lla x7, user
    csrrw x0, sepc, x7
    sret
user:
    ld x6, 0(x19)
    expect x6, 5
    fails _start + 0x11000, ld x6, 0(x9)
    fails _start + 0x11007, sb x6, 7(x9)
    fails _start + 0x10000, jalr x1, 0(x8)
    expect x6, 5
    addi x28, x0, 1
    lla x29, end
    ecall
handler:
    csrrs x30, stval, x0
    bne x30, x28, called
    csrrw x0, sepc, x29
    sret
called:
    csrrs x30, scause, x0
    expect x30, 8
    jalr x0, 0(x29)
    .include "ends.inc"
    .include "module_text.inc"
    .include "module_pages.inc"
