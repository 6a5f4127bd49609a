# Four harts add 1 to one number and write it. In step they read the same number, and so lose three
# of four sums; one after the other they lose none. Each `go` begins with the first hart, and so do
# the turns behind the script.
# ram 32 steps 126
# harts 4
#$ turn 0 24
#$ go 36
#$ turn 3 8
#$ turn 2 8
#$ turn 1 8
#$ turn 0 8
#$ go 2
#: start 7 0 1 P
#: start 15 0 2 P
#: start 23 0 3 P
#: out 56 0 31
#: out 57 1 31
#: out 58 2 31
#: out 59 3 31
#: out 67 3 32
#: out 75 2 33
#: out 83 1 34
#: out 91 0 35
#: out 118 0 36
#: out 119 1 36
#: out 124 2 36
#: out 125 3 36
    .include "harts.inc"
_start:
    start_hart 1, work
    start_hart 2, work
    start_hart 3, work
work:
    lla x8, number
next:
    ld x5, 0(x8)
    addi x5, x5, 1
    sd x5, 0(x8)
    ld x10, 0(x8)
    addi x10, x10, 0x30
    addi x17, x0, 1
    ecall
    jal x0, next
    .org 1024
number:
    .dword 0
