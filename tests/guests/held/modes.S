# Tables stay as they are, and mode, SUM and MXR change: each access is judged by what they are now.
# ram 64
# a page of mode S, in S, U and S
#= 0 ace NMP ace
# a page of mode U, in S, U and S
#= 0 NMP ace NMP
# with SUM, and without it
#= 0 aMe NMP
# code alone, with MXR and without it, in S and in U
#= 0 NcP acP NcP
#= 0 NcP acP NcP
    .include "held.inc"
    # goes on in mode U, at the addresses from 0 on
    .macro to_user
    lla x5, 1f
    slli x5, x5, 33
    srli x5, x5, 33
    csrrw x0, sepc, x5
    li x5, 0x100
    csrrc x0, sstatus, x5
    sret
1:
    .endm
    .macro to_supervisor
    addi x17, x0, 9
    ecall
    .endm
    .macro in_user
    to_user
    accesses
    to_supervisor
    .endm
    .macro status which, bits
    li x5, \bits
    csrr\which x0, sstatus, x5
    .endm
    .equ SUM, 1 << 18
    .equ MXR, 1 << 19
_start:
    trap_to trapped
    set_tables
    entry ROOT, 0, 0, RWX + 0x10
    set_contents
    virtual_page
    paging
    accesses
    in_user
    accesses
    entry LOW, LOW_INDEX, FIRST, RWX + 0x10
    accesses
    in_user
    accesses
    status s, SUM
    accesses
    status c, SUM
    accesses
    entry LOW, LOW_INDEX, FIRST, 0xc9
    accesses
    status s, MXR
    accesses
    status c, MXR
    accesses
    entry LOW, LOW_INDEX, FIRST, 0xd9
    in_user
    status s, MXR
    in_user
    status c, MXR
    in_user
    jal x0, end
    .include "ends.inc"
    .include "held_traps.inc"
