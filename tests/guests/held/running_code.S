# Code on the page changes an entry of each level, by a store of each width; the next instruction is
# fetched from the other page.
# ram 64
#= 0 cdddd
#= 0 cdddd
#= 0 cdddd
    .include "held.inc"
    .macro runs_elsewhere table, index, first, second, flags
    entry_at x6, \table, \index
    # nothing is changed by the first call
    li x7, 0x20000000 + 0x400 * (\first) + (\flags)
    jalr x1, 0x70(x8)
    write
    li x7, 4 * (\second)
    jalr x1, 0x40(x8)
    write
    change d, \first, \flags
    li x7, 0x400 * (\second) + (\flags)
    jalr x1, 0x50(x8)
    write
    change d, \first, \flags
    li x7, 0x20000000 + 0x400 * (\second) + (\flags)
    jalr x1, 0x60(x8)
    write
    change d, \first, \flags
    li x7, 0x20000000 + 0x400 * (\second) + (\flags)
    jalr x1, 0x70(x8)
    write
    change d, \first, \flags
    .endm
_start:
    trap_to wrong
    set_tables
    copy_code first_code, FIRST, 16, 0x40
    copy_code second_code, SECOND, 16, 0x40
    virtual_page
    paging
    runs_elsewhere LOW, LOW_INDEX, FIRST, SECOND, RWX
    runs_elsewhere MIDDLE, MIDDLE_INDEX, LOW, OTHER_LOW, TABLE
    runs_elsewhere ROOT, ROOT_INDEX, MIDDLE, OTHER_MIDDLE, TABLE
    jal x0, end
    .include "ends.inc"
    .balign 8
first_code:
    sb x7, 1(x6)
    addi x10, x0, 'c'
    jalr x0, 0(x1)
    ebreak
    sh x7, 0(x6)
    addi x10, x0, 'c'
    jalr x0, 0(x1)
    ebreak
    sw x7, 0(x6)
    addi x10, x0, 'c'
    jalr x0, 0(x1)
    ebreak
    sd x7, 0(x6)
    addi x10, x0, 'c'
    jalr x0, 0(x1)
    ebreak
second_code:
    .rept 4
    ebreak
    addi x10, x0, 'd'
    jalr x0, 0(x1)
    ebreak
    .endr
