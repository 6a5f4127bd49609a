# A hart changes an entry of each level by stores of each width, and accesses the page at once, with
# no SFENCE.VMA: it finds what the tables say now.
# ram 64
#= 0 ace
#= 0 babababa dcdcdcdc fefefefe
#= 0 babababa dcdcdcdc fefefefe
#= 0 babababa dcdcdcdc fefefefe
    .include "held.inc"
    .macro each_access first, second, flags
    there_and_back loads, \first, \second, \flags
    there_and_back calls, \first, \second, \flags
    there_and_back stores, \first, \second, \flags
    .endm
_start:
    trap_to wrong
    set_tables
    set_contents
    virtual_page
    paging
    accesses
    entry_at x6, LOW, LOW_INDEX
    each_access FIRST, SECOND, RWX
    entry_at x6, MIDDLE, MIDDLE_INDEX
    each_access LOW, OTHER_LOW, TABLE
    entry_at x6, ROOT, ROOT_INDEX
    each_access MIDDLE, OTHER_MIDDLE, TABLE
    jal x0, end
    .include "ends.inc"
