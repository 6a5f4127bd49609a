# A stopped module is resumed at its pc, in its mode, by its page at the page's own address, and not
# otherwise: elsewhere the fetch is denied, and another page there is just executed.
# ram 32
#: launch N 0 1 I
#: call N 0 0 1 0000000080010000
#: stop N 0 1 0000000080010008
#: trap N 0 0000000000000002 0000000080010008
#: deny N 0 0 fetch 0000000080010
#: trap N 0 0000000000000001 000000008001000c
#: deny N 0 0 fetch 0000000080030
#: trap N 0 0000000000000001 0000000080030008
#: trap N 0 0000000000000003 0000000080010010
#: deny N 0 0 fetch 0000000080010
#: trap N 0 0000000000000001 0000000080010008
#: deny N 0 0 fetch 0000000080010
#: trap N 0 0000000000000001 0000000080010008
#: resume N 0 1 0000000080010008
#: stop N 0 1 0000000080010008
#: trap N 0 0000000000000002 0000000080010008
    .include "secure.inc"
    .include "paging.inc"
    .macro go_to offset, label
    behind \label
    lla x7, _start + \offset
    csrrw x0, sepc, x7
    addi x7, x0, 0x100
    csrrs x0, sstatus, x7
    sret
    .endm

_start:
    trap_to handler
    lla x7, text
    b.launch x8, x7
    lla x9, _start + 0x10000
    behind stopped
    b.call x5, x8, x9
stopped:
    # the next word
    go_to 0x1000c, at_next
at_next:
    # its page at another address
    paging
    go_to 0x30008, at_other
at_other:
    # another page at its address: the words there are executed
    lla x7, leaves
    ld x6, 8 * 20(x7)
    sd x6, 8 * 16(x7)
    go_to 0x10008, at_page
at_page:
    expect x10, 20
    # another page of the module at its address
    lla x7, leaves
    ld x6, 8 * 21(x7)
    sd x6, 8 * 16(x7)
    go_to 0x10008, at_data
at_data:
    # its page again, but with mode U; the leaf is of that mode
    lla x7, leaves
    ld x6, 8 * 15(x7)
    sd x6, 8 * 16(x7)
    behind in_user_mode
    lla x7, _start + 0x10008
    csrrw x0, sepc, x7
    addi x7, x0, 0x100
    csrrc x0, sstatus, x7
    sret
in_user_mode:
    # and as it should be
    lla x7, leaves
    ld x6, 8 * 48(x7)
    sd x6, 8 * 16(x7)
    go_to 0x10008, resumed
resumed:
    jal x0, end
handler:
    go_behind
    .include "ends.inc"
    .org 1024
satp_value:
    .dword 0x8000000000080001
    .org 0x1000 + 8 * 2
    leaf 2, 1
    .org 0x2000
    leaf 3, 1
    .org 0x3000
leaves:
    leaf 0, RWX
    leaf 1, RWX
    leaf 2, RWX
    leaf 3, RWX
    .org 0x3000 + 8 * 15
    # what page 16 has in mode U
    leaf 16, 0xdf
    leaf 16, RWX
    .org 0x3000 + 8 * 20
    leaf 20, RWX
    leaf 17, RWX
    .org 0x3000 + 8 * 48
    leaf 16, RWX
    .include "module_text.inc"
    .org 0x10000
    addi x0, x0, 0
    addi x0, x0, 0
    .word 0
    .org 0x14008
    addi x10, x0, 20
    addi x0, x0, 0
    ebreak
