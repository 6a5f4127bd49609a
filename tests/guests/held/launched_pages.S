# Three harts load, call and store on one page by its translation. A fourth launches a module that
# takes the page, so that each is denied by its next access, and evicts it: then the page is zeros.
# ram 64
# harts 4
#= 1 aF.F.
#= 2 cBCBC
#= 3 eHeHe
#: start N 0 1 P
#: start N 0 2 P
#: start N 0 3 P
#: launch N 0 1 I
#: evict N 0 1 1
#: launch N 0 2 I
#: evict N 0 2 1
    .include "held.inc"
    .equ CODE, 26
_start:
    trap_to wrong
    set_tables
    entry LOW, LOW_INDEX + 1, CODE, RWX
    set_contents
    start_hart 1, loading
    start_hart 2, calling
    start_hart 3, storing
    paging
    wait 100
    .rept 2
    lla x7, text
    b.launch x18, x7
    wait 100
    b.evict x5, x18
    wait 100
    .endr
    jal x0, end
loading:
    trap_to trapped
    virtual_page
    paging
    watch load
calling:
    trap_to trapped
    virtual_page
    paging
    watch call
storing:
    trap_to trapped
    virtual_page
    paging
    watch store
    .include "ends.inc"
    .include "held_traps.inc"
    .include "held_text.inc"
