# A run that ends at its limit, with a stopped module: it is zeroed before the last event, or not,
# since there is no such event. One can't tell.
# ram 32 steps 52
#: launch 5 0 1 I
#: call 16 0 0 1 0000000080010000
#: stop 50 0 1 0000000080010008
#: trap 50 0 8000000000000005 0000000080010008
# zeroed 1@51 keeps all
# zeroed 1@52 keeps all
# zeroed 1@53 keeps all
    .include "switches/timer.S"
