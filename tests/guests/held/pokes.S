# A device writes bytes of an entry of each level, while one hart loads and another calls: first the
# byte by which the entry leads elsewhere, then the flags. The next access of each finds it.
# ram 64
# harts 2
#= 0 a ba ba ba Na Na Na z
#= 1 c dc dc dc Mc Mc Mc
#$ go 200
#$ poke 18 41 64
#$ go 60
#$ poke 18 41 60
#$ go 60
#$ poke 17 25 54
#$ go 60
#$ poke 17 25 48
#$ go 60
#$ poke 16 9 50
#$ go 60
#$ poke 16 9 44
#$ go 60
#$ poke 18 40 00
#$ go 60
#$ poke 18 40 cf
#$ go 60
#$ poke 17 24 00
#$ go 60
#$ poke 17 24 01
#$ go 60
#$ poke 16 8 00
#$ go 60
#$ poke 16 8 01
#$ go 60
# the last letter, at which the first hart ends
#$ poke 24 0 7a
#: start N 0 1 P
#: poke N 18 41 64
#: poke N 18 41 60
#: poke N 17 25 54
#: poke N 17 25 48
#: poke N 16 9 50
#: poke N 16 9 44
#: poke N 18 40 00
#: poke N 18 40 cf
#: poke N 17 24 00
#: poke N 17 24 01
#: poke N 16 8 00
#: poke N 16 8 01
#: poke N 24 0 7a
    .include "held.inc"
_start:
    trap_to trapped
    set_tables
    set_contents
    start_hart 1, calling
    virtual_page
    paging
    addi x9, x0, 0
1:  load
    beq x10, x9, 1b
    addi x9, x10, 0
    write
    addi x5, x0, 'z'
    bne x9, x5, 1b
    jal x0, end
calling:
    trap_to trapped
    virtual_page
    paging
    watch call
    .include "ends.inc"
    .include "held_traps.inc"
