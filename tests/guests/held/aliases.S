# The tables are reached at other addresses too: by leaves of 4 KiB that stand in these tables
# themselves, by one of 2 MiB and by another of 1 GiB. An entry of each level is changed at each of
# these by stores of each width.
# ram 64
#= 0 ace
#= 0 babababa dcdcdcdc fefefefe
#= 0 babababa dcdcdcdc fefefefe
#= 0 babababa dcdcdcdc fefefefe
    .include "held.inc"
    # x18 is where RAM's first page is by a superpage
    .macro large_aliases
    li x6, 0x1000 * LOW + 8 * LOW_INDEX
    add x6, x6, x18
    there_and_back loads, FIRST, SECOND, RWX
    li x6, 0x1000 * MIDDLE + 8 * MIDDLE_INDEX
    add x6, x6, x18
    there_and_back calls, LOW, OTHER_LOW, TABLE
    li x6, 0x1000 * ROOT + 8 * ROOT_INDEX
    add x6, x6, x18
    there_and_back stores, MIDDLE, OTHER_MIDDLE, TABLE
    .endm
    # the alias is this many pages behind the page
    .macro small_alias access, distance, index, first, second, flags
    lui x6, \distance
    add x6, x6, x8
    addi x6, x6, 8 * (\index)
    there_and_back \access, \first, \second, \flags
    .endm
_start:
    trap_to wrong
    set_tables
    set_contents
    virtual_page
    # these pages stand behind both tables
    .irp low, LOW, OTHER_LOW
    entry \low, LOW_INDEX + 1, LOW, RWX
    entry \low, LOW_INDEX + 2, MIDDLE, RWX
    entry \low, LOW_INDEX + 3, ROOT, RWX
    .endr
    entry MIDDLE, MIDDLE_INDEX + 1, 0, RWX
    entry OTHER_MIDDLE, MIDDLE_INDEX + 1, 0, RWX
    entry ROOT, ROOT_INDEX + 2, 0, RWX
    paging
    accesses
    small_alias loads, 1, LOW_INDEX, FIRST, SECOND, RWX
    small_alias calls, 2, MIDDLE_INDEX, LOW, OTHER_LOW, TABLE
    small_alias stores, 3, ROOT_INDEX, MIDDLE, OTHER_MIDDLE, TABLE
    # 2 MiB
    li x18, (ROOT_INDEX << 30) + ((MIDDLE_INDEX + 1) << 21)
    large_aliases
    # 1 GiB
    li x18, (ROOT_INDEX + 2) << 30
    large_aliases
    jal x0, end
    .include "ends.inc"
