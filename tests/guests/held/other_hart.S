# Three harts load, call and store, over and over, by the same tables. A fourth changes an entry of
# each level by stores of each width; each of the three finds it by its next access.
# ram 64
# harts 4
#= 0 a babababa babababa babababa
#= 2 c dcdcdcdc dcdcdcdc dcdcdcdc
#= 3 e fefefefe fefefefe fefefefe
#: start N 0 1 P
#: start N 0 2 P
#: start N 0 3 P
    .include "held.inc"
    .macro long_wait
    wait 100
    .endm
_start:
    trap_to wrong
    set_tables
    set_contents
    start_hart 1, changes
    start_hart 2, calling
    start_hart 3, storing
    virtual_page
    paging
    watch load
calling:
    trap_to wrong
    virtual_page
    paging
    watch call
storing:
    trap_to wrong
    virtual_page
    paging
    watch store
changes:
    trap_to wrong
    long_wait
    entry_at x6, LOW, LOW_INDEX
    there_and_back long_wait, FIRST, SECOND, RWX
    entry_at x6, MIDDLE, MIDDLE_INDEX
    there_and_back long_wait, LOW, OTHER_LOW, TABLE
    entry_at x6, ROOT, ROOT_INDEX
    there_and_back long_wait, MIDDLE, OTHER_MIDDLE, TABLE
    jal x0, end
    .include "ends.inc"
