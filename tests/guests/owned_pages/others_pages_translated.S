# The same by leaves of 4 KiB, 2 MiB and 1 GiB, in modes S and U. What a leaf doesn't permit is a
# page fault, and not denied; a superpage over a module's pages leads to all pages but these.
# ram 32
#: launch N 0 1 I
#: deny N 0 0 load 0000000080011
#: trap N 0 0000000000000005 P
#: deny N 0 0 load 0000000000411
#: trap N 0 0000000000000005 P
#: deny N 0 0 store 0000000000410
#: trap N 0 0000000000000007 P
#: deny N 0 0 fetch 0000000000410
#: trap N 0 0000000000000001 0000000000410000
#: trap N 0 000000000000000d P
#: deny N 0 0 load 0000000000010
#: trap N 0 0000000000000005 P
#: deny N 0 0 store 0000000000010
#: trap N 0 0000000000000007 P
#: trap N 0 000000000000000f P
#: deny N 0 0 load 0000000000011
#: trap N 0 0000000000000005 P
#: deny N 0 0 fetch 0000000000012
#: trap N 0 0000000000000001 0000000000012000
#: trap N 0 000000000000000c 0000000000010000
#: trap N 0 0000000000000008 P
    .include "secure.inc"
    .include "paging.inc"
    .macro fails cause, instruction:vararg
    addi x28, x0, \cause
    lla x29, behind\@
    \instruction
    jal x0, wrong
behind\@:
    .endm

_start:
    trap_to handler
    paging
    lla x8, text
    b.launch x5, x8
    expect x5, 1
    # the leaf of 1 GiB, and one of 2 MiB
    lla x8, _start + 0x11000
    lui x9, 0x410
    lui x18, 0x411
    lui x19, 0x412
    lui x20, 0x10
    lui x21, 0x11
    lui x22, 0x12
    fails 5, ld x6, 0(x8)
    fails 5, lhu x6, 2(x18)
    fails 7, sd x6, 0(x9)
    fails 1, jalr x1, 0(x9)
    expect x6, 0
    ld x6, 0(x19)
    expect x6, 77
    # a leaf of mode U
    fails 13, ld x6, 0(x20)
    # its instructions are led by such a leaf too
    lla x7, user
    slli x7, x7, 52
    srli x7, x7, 52
    lui x6, 0x13
    add x7, x7, x6
    csrrw x0, sepc, x7
    sret
user:
    fails 5, ld x6, 0(x20)
    fails 7, sd x6, 0(x20)
    fails 15, sd x6, 0(x21)
    fails 5, lb x6, 0(x21)
    fails 1, jalr x1, 0(x22)
    fails 12, jalr x1, 0(x20)
    addi x28, x0, 8
    lla x29, end
    ecall
handler:
    csrrs x30, scause, x0
    bne x30, x28, wrong
    addi x31, x0, 8
    beq x30, x31, end
    csrrw x0, sepc, x29
    sret
    .include "ends.inc"
    .org 1024
satp_value:
    .dword 0x8000000000080001
    .org 0x1000
    leaf 2, 1
    .org 0x1000 + 8 * 2
    leaf 0, RWX
    .org 0x2000
    leaf 3, 1
    .org 0x2000 + 8 * 2
    leaf 0, RWX
    .org 0x3000 + 8 * 0x10
    leaf 17, 0xd7
    leaf 17, 0xd3
    leaf 16, 0xdb
    leaf 0, 0xdf
    .include "module_text.inc"
    .include "module_pages.inc"
    .org 0x12000
    .dword 77
