# A module loads from its page, over and over, by a translation. Another hart changes an entry of
# each level, by a store of each width, so that the address leads to a page that isn't the module's:
# the next load is denied, and the module is stopped. The kernel puts the entries back, and goes on
# to where the module was stopped, which resumes it. At last it is told to return.
# ram 64
# harts 2
#= 0 r
#: start N 0 1 P
#: launch N 0 1 I
#: call N 0 0 1 0000000040606000
#: stop N 0 1 P
#: resume N 0 1 P
#: stop N 0 1 P
#: resume N 0 1 P
#: stop N 0 1 P
#: resume N 0 1 P
#: stop N 0 1 P
#: resume N 0 1 P
#: stop N 0 1 P
#: resume N 0 1 P
#: stop N 0 1 P
#: resume N 0 1 P
#: stop N 0 1 P
#: resume N 0 1 P
#: stop N 0 1 P
#: resume N 0 1 P
#: stop N 0 1 P
#: resume N 0 1 P
#: stop N 0 1 P
#: resume N 0 1 P
#: stop N 0 1 P
#: resume N 0 1 P
#: stop N 0 1 P
#: resume N 0 1 P
#: ret N 0 1 0 P
    .include "held.inc"
    .equ CODE, 26
    # an entry leads elsewhere by a store of each width; the kernel puts it back meanwhile
    .macro leads_elsewhere second, flags
    .irp width, b, h, w, d
    change \width, \second, \flags
    wait 120
    .endr
    .endm
_start:
    trap_to denied
    set_tables
    # the code is found by all tables
    entry LOW, LOW_INDEX + 1, CODE, RWX
    entry OTHER_LOW, LOW_INDEX + 1, CODE, RWX
    set_contents
    copy_code module, CODE, 5
    start_hart 1, changes
    virtual_page
    paging
    lla x7, text
    b.launch x18, x7
    # the page, and where it is told to return
    addi x10, x8, 0
    lla x11, returns
    lui x9, 1
    add x9, x9, x8
    b.call x5, x18, x9
    addi x10, x0, 'r'
    write
    jal x0, end
module:
    lbu x12, 0(x10)
    lbu x13, 0(x11)
    beq x13, x0, module
    b.ret
    ebreak
    # back to the module
denied:
    csrrs x30, scause, x0
    addi x31, x0, 5
    bne x30, x31, wrong
    entry LOW, LOW_INDEX, FIRST, RWX
    entry MIDDLE, MIDDLE_INDEX, LOW, TABLE
    entry ROOT, ROOT_INDEX, MIDDLE, TABLE
    sret
changes:
    wait 200
    entry_at x6, LOW, LOW_INDEX
    leads_elsewhere SECOND, RWX
    entry_at x6, MIDDLE, MIDDLE_INDEX
    leads_elsewhere OTHER_LOW, TABLE
    entry_at x6, ROOT, ROOT_INDEX
    leads_elsewhere OTHER_MIDDLE, TABLE
    lla x6, returns
    addi x7, x0, 1
    sb x7, 0(x6)
    jal x0, .
    .include "ends.inc"
returns:
    .byte 0
    .include "held_text.inc"
