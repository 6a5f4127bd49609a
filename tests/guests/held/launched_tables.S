# Each of three harts has tables of its own, of which a module takes one: the root, a middle table,
# a low table. Each of these harts is refused by its next access, whose walk may not read the table;
# when the module is evicted the tables are zeros. A fourth, whose tables are others, goes on.
# ram 64
# harts 4
#$ turn 0 90
#$ turn 1 60
#$ turn 2 60
#$ turn 3 60
#= 0 aaaa
#= 1 a
#= 2 aFN
#= 3 cBM
#: start N 0 1 P
#: start N 0 2 P
#: start N 0 3 P
#: launch N 0 1 I
#: evict N 0 1 1
    .include "held.inc"
    .equ CODE, 26
    .equ TAKEN_ROOT, 32
    .equ SECOND_ROOT, 33
    .equ TAKEN_MIDDLE, 34
    .equ THIRD_ROOT, 35
    .equ THIRD_MIDDLE, 36
    .equ TAKEN_LOW, 37
_start:
    trap_to wrong
    set_tables
    set_contents
    entry TAKEN_ROOT, 2, 0, RWX
    entry TAKEN_ROOT, ROOT_INDEX, MIDDLE, TABLE
    entry SECOND_ROOT, 2, 0, RWX
    entry SECOND_ROOT, ROOT_INDEX, TAKEN_MIDDLE, TABLE
    entry TAKEN_MIDDLE, MIDDLE_INDEX, LOW, TABLE
    entry THIRD_ROOT, 2, 0, RWX
    entry THIRD_ROOT, ROOT_INDEX, THIRD_MIDDLE, TABLE
    entry THIRD_MIDDLE, MIDDLE_INDEX, TAKEN_LOW, TABLE
    entry TAKEN_LOW, LOW_INDEX, FIRST, RWX
    start_hart 1, first
    start_hart 2, second
    start_hart 3, third
    virtual_page
    paging
    loads
    wait 100
    loads
    lla x7, text
    b.launch x18, x7
    loads
    wait 100
    b.evict x5, x18
    loads
    wait 100
    jal x0, end
first:
    trap_to trapped
    virtual_page
    paging TAKEN_ROOT
    watch load
second:
    trap_to trapped
    virtual_page
    paging SECOND_ROOT
    watch load
third:
    trap_to trapped
    virtual_page
    paging THIRD_ROOT
    watch call
    .include "ends.inc"
    .include "held_traps.inc"
    .balign 2048
text:
    segment 1, 4, 0, 0x8001a000
    page 0x8001a, PRIVATE, 5
    page 0x80020, PRIVATE, 3
    page 0x80022, PRIVATE, 3
    page 0x80025, PRIVATE, 3
    partners 4
    .zero 128
