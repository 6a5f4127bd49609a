# A module that was called, and then is stopped, is evicted. Where it was zeroed before, that is the
# same: its pages are zeros, and a launch of its text gives the identity of a module of zeros.
# ram 32
#: launch 5 0 1 I
#: call 11 0 0 1 0000000080010000
#: ret 15 0 1 0 P
#: call 17 0 0 1 0000000080010000
#: stop 19 0 1 0000000080010010
#: trap 19 0 0000000000000002 0000000080010010
#: evict 21 0 1 1
#: launch N 0 2 I
# zeroed 1@16 keeps 4
#| stop 18 0 1 0000000080010000
#| trap 18 0 0000000000000002 0000000080010000
#| evict 20 0 1 1
#| launch N 0 2 I
# zeroed 1@20 keeps all
# zeroed 1@21 keeps all
# zeroed 1@22 keeps all
    .include "secure.inc"
_start:
    trap_to handler
    lla x7, text
    b.launch x8, x7
    expect x8, 1
    lla x9, _start + 0x10000
    addi x10, x0, 0
    b.call x5, x8, x9
    addi x10, x0, 1
    b.call x5, x8, x9
    jal x0, wrong
handler:
    addi x8, x0, 1
    b.evict x5, x8
    expect x5, 0
    lla x9, _start + 0x10000
    ld x5, 0(x9)
    expect x5, 0
    lla x9, _start + 0x11000
    ld x5, 0(x9)
    expect x5, 0
    ld x5, 8(x9)
    expect x5, 0
    lla x7, text
    b.launch x8, x7
    expect x8, 2
    jal x0, end
    .include "ends.inc"
    .include "module_text.inc"
    # puts a number into its page, or executes no instruction
    .org 0x10000
    bne x10, x0, 1f
    auipc x5, 1
    sd x5, -4(x5)
    b.ret
1:  .word 0
    .org 0x11000
    .dword 0x1122334455667788
