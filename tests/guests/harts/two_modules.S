# A module runs on one hart: on another it can't be called, evicted or launched again, and its pages
# are denied. A second module runs there at the same time, and to each the other's page is denied.
# ram 32
# harts 2
#$ turn 0 23
#$ turn 1 25
# the first module reaches for the second's page
#$ turn 0 1
# the second calls the first, and then reaches for its page
#$ turn 1 3
# any hart evicts a stopped module
#$ turn 0 7
#: launch 5 0 1 I
#: launch 8 0 2 I
#: start 16 0 1 P
#: call 21 0 0 1 0000000080010000
#: refuse 30 1 call -4
#: refuse 31 1 evict -2
#: refuse 34 1 launch -4
#: deny 37 1 0 load 0000000080011
#: trap 37 1 0000000000000005 P
#: call 47 1 0 2 0000000080012000
#: deny 48 0 1 load 0000000080012
#: stop 48 0 1 0000000080010004
#: trap 48 0 0000000000000005 0000000080010004
#: refuse 50 1 call -4
#: deny 51 1 2 load 0000000080011
#: stop 51 1 2 0000000080012008
#: trap 51 1 0000000000000005 0000000080012008
#: evict 53 0 1 1
#: evict 55 0 2 1
# each rests where no hart runs it: the second before its call, both when they are stopped
# zeroed 1@40 keeps all
# zeroed 1@49 keeps all
# zeroed 1@53 keeps all
# zeroed 2@30 keeps 13
#| stop 49 1 2 0000000080012000
#| trap 49 1 0000000000000002 0000000080012000
#| evict 53 0 1 1
#| evict 55 0 2 1
# zeroed 2@48 keeps all
# zeroed 2@52 keeps all
    .include "secure.inc"
    .include "harts.inc"
_start:
    trap_to handler
    lla x7, text
    b.launch x18, x7
    lla x7, other
    b.launch x19, x7
    start_hart 1, second
    lla x9, _start + 0x10000
    lla x11, _start + 0x12000
    b.call x5, x18, x9
    jal x0, wrong

second:
    trap_to denied
    addi x18, x0, 1
    lla x9, _start + 0x10000
    addi x12, x9, 0
    b.call x5, x18, x9
    b.evict x6, x18
    lla x7, text
    b.launch x7, x7
    lla x11, _start + 0x11000
    ld x20, 0(x11)
    jal x0, wrong
denied:
    expect x5, -4
    expect x6, -2
    expect x7, -4
    addi x19, x0, 2
    lla x9, _start + 0x12000
    b.call x5, x19, x9
    jal x0, wrong

handler:
    addi x5, x0, 1
    b.evict x6, x5
    addi x5, x0, 2
    b.evict x6, x5
    jal x0, end
    .include "ends.inc"
    .include "module_text.inc"
    .org 0x9000
other:
    segment 1, 1, 0, 0x80012000
    page 0x80012, PRIVATE, 5
    # a1 is the address of a page of the other module, and a2 that module's entry
    .org 0x10000
    addi x5, x0, 0
    ld x5, 0(x11)
    .org 0x12000
    addi x5, x0, 1
    b.call x7, x5, x12
    ld x5, 0(x11)
