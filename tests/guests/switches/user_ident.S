# Mode U may use b.ident, and gets 0 as there is no such module.
# ram 32 steps 9
#: trap 6 0 0000000000000008 0000000080000018
#: trap 7 0 0000000000000001 0000000000000000
#: trap 8 0 0000000000000001 0000000000000000
_start:
    auipc x8, 0
    lla x5, user
    csrrw x0, sepc, x5
    sret
user:
    .insn r 0x0b, 4, 0, x5, x6, x7
    ecall
