# Three harts use three pages: one loads and stores, one executes, one has its tables there. A fourth
# launches a module of these pages, and each of the three is refused at once; when the module is
# evicted, they find zeros.
# ram 32
# harts 4
#$ turn 0 27
#$ turn 1 8
#$ turn 2 7
#$ turn 3 8
# the launch
#$ turn 0 3
# a load and a store are denied, and so is a fetch; with no tables a hart can't even trap
#$ turn 1 6
#$ turn 2 1
#$ turn 3 2
# the eviction
#$ turn 0 1
#$ turn 1 10
#$ turn 2 3
#$ turn 3 1
#$ turn 0 3
#: start 10 0 1 P
#: start 18 0 2 P
#: start 26 0 3 P
#: launch 52 0 1 I
#: deny 53 1 0 load 0000000080011
#: trap 53 1 0000000000000005 P
#: deny 58 1 0 store 0000000080011
#: trap 58 1 0000000000000007 P
#: deny 59 2 0 fetch 0000000080010
#: trap 59 2 0000000000000001 0000000080010010
#: trap 60 3 0000000000000001 P
#: trap 61 3 0000000000000001 P
#: evict 62 0 1 1
#: out 72 1 00
#: trap 75 2 0000000000000002 0000000080010010
#: trap 76 3 000000000000000c P
    .include "secure.inc"
    .include "harts.inc"
_start:
    trap_to wrong
    start_hart 1, accesses
    start_hart 2, executes
    start_hart 3, translates
    lla x7, pages
    b.launch x18, x7
    b.evict x5, x18
    jal x0, end

accesses:
    trap_to next
    lla x7, _start + 0x11000
again:
    ld x10, 0(x7)
    sd x10, 0(x7)
    bne x10, x0, again
    addi x17, x0, 1
    ecall
    jal x0, .
# goes on behind a load or a store that is denied, which leaves its register
next:
    csrrs x5, sepc, x0
    addi x5, x5, 4
    csrrw x0, sepc, x5
    sret

executes:
    trap_to back
    lla x5, _start + 0x10010
    jalr x0, 0(x5)
back:
    csrrs x6, scause, x0
    sret

translates:
    trap_to wrong
    lla x6, satp_value
    ld x6, 0(x6)
    csrrw x0, satp, x6
    jal x0, .
    .include "ends.inc"
    .org 1024
satp_value:
    .dword 0x8000000000080012
    .org 0x8000
pages:
    segment 1, 3, 0, 0x80010000
    page 0x80010, PRIVATE, 5
    page 0x80011, PRIVATE, 3
    page 0x80012, PRIVATE, 3
    partners 3
    .org 0x10010
    jal x0, .
    .org 0x11000
    .dword 0x1122334455667788
    # the third gigabyte is RAM's
    .org 0x12000 + 8 * 2
    .dword 0x200000cf
