# A timer stops a module, which is zeroed where it rests: nothing changes up to the line by which it
# goes on, and then its code is zeros. It isn't zeroed where it runs, nor where it doesn't live yet,
# nor where there is no such event or no such module.
# ram 32
#: launch 5 0 1 I
#: call 16 0 0 1 0000000080010000
#: stop 50 0 1 0000000080010008
#: trap 50 0 8000000000000005 0000000080010008
#: resume 100 0 1 0000000080010008
#: ret 164 0 1 0 P
# zeroed 1@0 keeps all
# zeroed 1@5 keeps all
# zeroed 1@6 keeps 2
#| stop 17 0 1 0000000080010000
#| trap 17 0 0000000000000002 0000000080010000
#| out N 0 21
# zeroed 1@16 keeps 2
#| stop 17 0 1 0000000080010000
#| trap 17 0 0000000000000002 0000000080010000
#| out N 0 21
# zeroed 1@17 keeps all
# zeroed 1@50 keeps all
# zeroed 1@51 keeps 5
#| stop 101 0 1 0000000080010008
#| trap 101 0 0000000000000002 0000000080010008
#| out N 0 21
# zeroed 1@100 keeps 5
#| stop 101 0 1 0000000080010008
#| trap 101 0 0000000000000002 0000000080010008
#| out N 0 21
# zeroed 1@101 keeps all
# zeroed 1@164 keeps all
# zeroed 1@165 keeps all
# zeroed 1@169 keeps all
# zeroed 1@170 keeps all
# zeroed 1@60000 keeps all
# zeroed 1@1000000000 keeps all
# zeroed 2@51 keeps all
# zeroed 65535@51 keeps all
    .include "switches/timer.S"
