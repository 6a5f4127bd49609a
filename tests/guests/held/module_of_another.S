# A module loads from a page that nobody owns, over and over. Another hart launches a module that
# takes the page: the next load is denied, and the first module is stopped. When the second is
# evicted, the first is resumed, loads zeros and returns.
# ram 64
# harts 2
#= 0 F.
#: start N 0 1 P
#: launch N 0 1 I
#: call N 0 0 1 0000000080018000
#: launch N 1 2 I
#: stop N 0 1 P
#: evict N 0 2 1
#: resume N 0 1 P
#: ret N 0 1 0 P
    .include "held.inc"
    .equ CODE, 26
    .equ OTHER_CODE, 27
_start:
    trap_to denied
    set_tables
    contents SECOND, 'b', 'd'
    entry LOW, LOW_INDEX, SECOND, RWX
    copy_code module, FIRST, 4
    start_hart 1, launches
    virtual_page
    paging
    lla x7, text
    b.launch x18, x7
    addi x10, x8, 0
    lla x9, _start + 0x1000 * FIRST
    b.call x5, x18, x9
    write
    jal x0, end
    # it loads until there are zeros
module:
    lbu x12, 0(x10)
    bne x12, x0, module
    addi x10, x12, 0
    b.ret
denied:
    csrrs x10, scause, x0
    addi x10, x10, 'A'
    write
    addi x5, x0, 2
    b.evict x6, x5
    sret
launches:
    trap_to wrong
    paging
    wait 100
    lla x7, other_text
    b.launch x18, x7
    jal x0, .
    .include "ends.inc"
    .balign 2048
text:
    segment 1, 1, 0, 0x80018000
    page 0x80018, PRIVATE, 5
    partners 1
    .zero 128
    .balign 2048
other_text:
    segment 1, 2, 0, 0x8001b000
    page 0x40605, PRIVATE, 3
    page 0x8001b, PRIVATE, 5
    partners 2
    .zero 128
