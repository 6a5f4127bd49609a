# A module's declared page is led to a page that is nobody's: the module doesn't get it.
# ram 32
#: launch N 0 1 I
#: call N 0 0 1 0000000080010000
#: deny N 0 1 load 0000000080011
#: stop N 0 1 0000000080010000
#: trap N 0 0000000000000005 0000000080010000
#: resume N 0 1 0000000080010000
#: ret N 0 1 0 P
    .include "secure.inc"
    .include "paging.inc"
_start:
    trap_to handler
    paging
    lla x7, text
    b.launch x8, x7
    expect x8, 1
    lla x7, leaves
    ld x6, 8 * 20(x7)
    sd x6, 8 * 17(x7)
    lla x9, _start + 0x10000
    lla x10, _start + 0x11ff8
    b.call x5, x8, x9
    expect x10, 99
    jal x0, end
handler:
    csrrs x5, stval, x0
    lla x6, _start + 0x11000
    bne x5, x6, wrong
    lla x7, leaves
    ld x6, 8 * 21(x7)
    sd x6, 8 * 17(x7)
    sret
    .include "ends.inc"
    .org 1024
satp_value:
    .dword 0x8000000000080001
    .org 0x1000 + 8 * 2
    leaf 2, 1
    .org 0x2000
    leaf 3, 1
    .org 0x3000
leaves:
    leaf 0, RWX
    leaf 1, RWX
    leaf 2, RWX
    leaf 3, RWX
    .org 0x3000 + 8 * 8
    leaf 8, RWX
    .org 0x3000 + 8 * 16
    leaf 16, RWX
    leaf 17, RWX
    .org 0x3000 + 8 * 20
    leaf 20, RWX
    leaf 17, RWX
    .include "module_text.inc"
    .org 0x10000
    ld x10, 0(x10)
    b.ret
    .org 0x11ff8
    .dword 99
    .org 0x14ff8
    .dword 11
