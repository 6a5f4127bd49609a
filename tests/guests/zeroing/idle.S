# A module keeps a number from one call to the next. Where it is zeroed in between, the kernel finds
# it as before: it is denied, and refused, and the module has its identity. The line of the call is
# the same, and then its code is zeros.
# ram 32
#: launch N 0 1 I
#: call N 0 0 1 0000000080010000
#: ret 17 0 1 0 P
#: deny N 0 0 load 0000000080011
#: trap N 0 0000000000000005 P
#: refuse N 0 launch -4
#: refuse N 0 call -2
#: call 43 0 0 1 0000000080010000
#: ret N 0 1 0 P
# zeroed 1@17 keeps all
# zeroed 1@18 keeps 8
#| stop 44 0 1 0000000080010000
#| trap 44 0 0000000000000002 0000000080010000
#| out N 0 21
# zeroed 1@43 keeps 8
#| stop 44 0 1 0000000080010000
#| trap 44 0 0000000000000002 0000000080010000
#| out N 0 21
# zeroed 1@44 keeps all
    .include "secure.inc"
_start:
    trap_to handler
    lla x8, text
    b.launch x5, x8
    expect x5, 1
    lla x9, _start + 0x10000
    b.ident x20, x5, x0
    addi x10, x0, 40
    b.call x6, x5, x9
    expect x10, 40
    behind denied
    lla x7, _start + 0x11000
    ld x11, 0(x7)
    jal x0, wrong
denied:
    lla x7, text
    b.launch x7, x7
    expect x7, -4
    addi x7, x9, 4
    b.call x7, x5, x7
    expect x7, -2
    b.ident x21, x5, x0
    bne x20, x21, wrong
    addi x10, x0, 2
    b.call x6, x5, x9
    expect x10, 42
    jal x0, end
handler:
    csrrs x31, scause, x0
    addi x31, x31, -5
    bne x31, x0, wrong
    go_behind
    .include "ends.inc"
    .include "module_text.inc"
    .org 0x10000
    # adds a0 to its number, which it gives
    auipc x5, 1
    ld x6, 8(x5)
    add x10, x10, x6
    sd x10, 8(x5)
    b.ret
    .org 0x11000
    .dword 0x1122334455667788
