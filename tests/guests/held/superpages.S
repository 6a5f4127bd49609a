# An entry of the middle table leads to a table, then it is a leaf of 2 MiB, then it leads to the
# table again; three pages behind it are found at once where they are now. The same with an entry of
# the root, whose leaf of 1 GiB leads beyond RAM.
# ram 64
#= 0 abb ace
#= 0 ijj ijg abb ace
#= 0 ijj ijg abb ace
#= 0 FFF FBH abb ace
#= 0 FFF FBH abb ace
    .include "held.inc"
    .equ FIFTH, 5
    # the page itself, and the two behind it
    .macro three_pages
    lui x5, 1
    loads
    add x8, x8, x5
    loads
    add x8, x8, x5
    loads
    virtual_page
    accesses
    .endm
_start:
    trap_to trapped
    set_tables
    entry LOW, LOW_INDEX + 1, SECOND, RWX
    entry LOW, LOW_INDEX + 2, SECOND, RWX
    set_contents
    # the pages that have the same place behind a superpage
    contents FIFTH, 'i', 'j'
    contents FIFTH + 1, 'j', 'j'
    contents FIFTH + 2, 'j', 'j'
    virtual_page
    paging
    three_pages
    .rept 2
    entry MIDDLE, MIDDLE_INDEX, 0, RWX
    three_pages
    entry MIDDLE, MIDDLE_INDEX, LOW, TABLE
    three_pages
    .endr
    .rept 2
    entry ROOT, ROOT_INDEX, 0, RWX
    three_pages
    entry ROOT, ROOT_INDEX, MIDDLE, TABLE
    three_pages
    .endr
    jal x0, end
    .include "ends.inc"
    .include "held_traps.inc"
