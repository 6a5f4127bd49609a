# The page is a table of its own walk: first the one with its leaf, then the middle one, then the
# root. A store to the page, of each width, changes the entry that led there; the next access goes
# where it leads now.
# ram 64
#= 0 ace
#= 0 bdf bdf bdf bdf
#= 0 bdf bdf bdf bdf
#= 0 bdf bdf bdf bdf
    .include "held.inc"
    .macro leads_elsewhere width, table, index, second, flags
    entry LOW, LOW_INDEX, \table, RWX
    addi x6, x8, 8 * (\index)
    change \width, \second, \flags
    accesses
    .endm
_start:
    trap_to wrong
    set_tables
    set_contents
    virtual_page
    paging
    accesses
    .irp width, b, h, w, d
    leads_elsewhere \width, LOW, LOW_INDEX, SECOND, RWX
    .endr
    .irp width, b, h, w, d
    leads_elsewhere \width, MIDDLE, MIDDLE_INDEX, OTHER_LOW, TABLE
    entry MIDDLE, MIDDLE_INDEX, LOW, TABLE
    .endr
    .irp width, b, h, w, d
    leads_elsewhere \width, ROOT, ROOT_INDEX, OTHER_MIDDLE, TABLE
    entry ROOT, ROOT_INDEX, MIDDLE, TABLE
    .endr
    jal x0, end
    .include "ends.inc"
