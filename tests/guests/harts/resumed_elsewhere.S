# The same two harts, but now the one that didn't call the module comes first: it resumes the module,
# and goes on as its caller, whose registers come back there.
# ram 32
# harts 2
#$ turn 0 22
#$ turn 1 9
#$ turn 0 5
#$ turn 1 3
# now both stand there
#$ turn 1 1
#$ turn 0 1
#: launch 5 0 1 I
#: start 13 0 1 P
#: call 19 0 0 1 0000000080010000
#: stop 31 0 1 0000000080010008
#: trap 31 0 8000000000000001 0000000080010008
#: resume 39 1 1 0000000080010008
#: deny 40 0 0 fetch 0000000080010
#: trap 40 0 0000000000000001 0000000080010008
#: ret 42 1 1 0 P
# zeroed 1@39 keeps 8
#| stop 42 1 1 0000000080010008
#| trap 42 1 0000000000000002 0000000080010008
#| out N 1 21
# zeroed 1@40 keeps all
    .include "harts/resumed_once.S"
