# Bytes that devices read and write: in RAM and on a page that nobody owns, also where it is a table
# or code, and nowhere else. The guest finds them at once. Each is an event, and no instruction.
# ram 32
#$ turn 0 13
#$ poke 20 0 7f
#$ turn 0 4
#$ peek 20 1
# the pages of a module, which is idle, and its text
#$ peek 16 0
#$ peek 17 0
#$ poke 16 0 00
#$ poke 17 0 00
#$ peek 8 0
# the last byte of RAM, and pages behind it
#$ poke 31 4095 a5
#$ peek 31 4095
#$ peek 32 0
#$ poke 32 0 01
#$ peek 4294967295 4095
#$ poke 4294967295 0 01
# a leaf of the first page, which leads to page 21 now
#$ poke 3 1 54
#$ turn 0 13
# the module runs
#$ poke 17 0 00
#$ peek 17 0
#$ turn 0 7
# the next instruction
#$ poke 0 514 20
#$ turn 0 4
# the module is gone
#$ peek 17 0
#$ poke 17 0 66
#: launch 9 0 1 I
#: poke 13 20 0 7f
#: peek 18 20 1 55
#: nopeek 19 16 0
#: nopeek 20 17 0
#: nopoke 21 16 0
#: nopoke 22 17 0
#: peek 23 8 0 42
#: poke 24 31 4095 a5
#: peek 25 31 4095 a5
#: nopeek 26 32 0
#: nopoke 27 32 0
#: nopeek 28 4294967295 4095
#: nopoke 29 4294967295 0
#: poke 30 3 1 54
#: call 42 0 0 1 0000000080010000
#: nopoke 44 17 0
#: nopeek 45 17 0
#: ret 47 0 1 0 P
#: poke 53 0 514 20
#: evict 57 0 1 1
#: peek 58 17 0 00
#: poke 59 17 0 66
# devices find no more where the module rests and is zeroed; when it is called its code is zeros
# zeroed 1@13 keeps 16
#| stop 43 0 1 0000000080010000
#| trap 43 0 0000000000000002 0000000080010000
#| nopoke 44 17 0
#| nopeek 45 17 0
#| out 48 0 21
# zeroed 1@19 keeps 16
#| stop 43 0 1 0000000080010000
#| trap 43 0 0000000000000002 0000000080010000
#| nopoke 44 17 0
#| nopeek 45 17 0
#| out 48 0 21
# where it runs, and where it is evicted next
# zeroed 1@44 keeps all
# zeroed 1@57 keeps all
    .include "secure.inc"
    .include "paging.inc"
_start:
    trap_to wrong
    paging
    lla x7, text
    b.launch x18, x7
    lla x8, _start + 0x14000
    lbu x5, 0(x8)
    # here the first poke
    lbu x6, 0(x8)
    lbu x7, 0(x0)
    addi x9, x0, 0x55
    sb x9, 1(x8)
    # here others, of the leaf too
    lbu x19, 0(x0)
    expect x5, 0
    expect x6, 0x7f
    expect x7, 0x7f
    expect x19, 0x33
    lla x9, _start + 0x10000
    b.call x5, x18, x9
    lla x6, number
    ld x6, 0(x6)
    bne x10, x6, wrong
    jal x0, changed
    .include "ends.inc"
    .org 0x200
changed:
    addi x5, x0, 1
    expect x5, 2
    b.evict x5, x18
    lla x6, _start + 0x11000
    ld x6, 0(x6)
    expect x6, 0x66
    csrrs x5, time, x0
    expect x5, 65
    # without the 19 events of devices
    csrrs x6, instret, x0
    expect x6, 49
    jal x0, end
    .include "tables.inc"
    .org 0x3000
    leaf 20, RWX
number:
    .dword 0x1122334455667788
    .include "module_text.inc"
    .org 0x10000
    auipc x5, 1
    ld x10, 0(x5)
    b.ret
    .org 0x11000
    .dword 0x1122334455667788
    .org 0x15000
    .byte 0x33
