# The kernel gives a page of a module as its root. Every access traps, and none is denied, whatever
# is in the page.
# ram 32 steps 13
#: launch 5 0 1 I
#: trap 10 0 0000000000000001 0000000080000028
#: trap N 0 0000000000000001 0000000080001000
#: trap N 0 0000000000000001 0000000080001000
# zeroed 1@6 keeps all
# zeroed 1@9 keeps all
# zeroed 1@10 keeps all
    .include "owned_pages/own_root.S"
