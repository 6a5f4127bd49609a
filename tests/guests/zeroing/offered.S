# A module offers a page, which another accepts. It isn't zeroed with the one, nor with the other:
# who still runs reads there what was written last.
# ram 32
#: launch 5 0 1 I
#: launch 10 0 2 I
#: call 22 0 0 1 0000000080010000
#: ret 26 0 1 0 P
#: call 30 0 0 2 0000000080011000
#: ret 32 0 2 0 P
#: call 37 0 0 1 0000000080010000
#: ret 41 0 1 0 P
#: call 45 0 0 2 0000000080011000
#: ret 47 0 2 0 P
# the one that offers, before its second call; the handler finds that the other reads 55
# zeroed 1@27 keeps 7
#| stop 38 0 1 0000000080010000
#| trap 38 0 0000000000000002 0000000080010000
#| call N 0 0 2 0000000080011000
#| ret N 0 2 0 P
# where the other runs, and where it runs itself
# zeroed 1@31 keeps 7
#| stop 38 0 1 0000000080010000
#| trap 38 0 0000000000000002 0000000080010000
#| call N 0 0 2 0000000080011000
#| ret N 0 2 0 P
# zeroed 1@38 keeps all
# behind its second call, and where the other runs: that reads 66
# zeroed 1@42 keeps all
# zeroed 1@46 keeps all
# the one that accepts, before its second call: the first finds 55 in the page
# zeroed 2@33 keeps 9
#| stop 46 0 2 0000000080011000
#| trap 46 0 0000000000000002 0000000080011000
#| refuse N 0 call -4
#| out N 0 21
# where it runs
# zeroed 2@31 keeps all
# zeroed 2@46 keeps all
# where the first runs, which reads on
# zeroed 2@38 keeps 9
#| stop 46 0 2 0000000080011000
#| trap 46 0 0000000000000002 0000000080011000
#| refuse N 0 call -4
#| out N 0 21
# behind its second call
# zeroed 2@48 keeps all
    .include "secure.inc"
    .macro call_first value
    addi x10, x18, 0
    addi x11, x0, \value
    b.call x7, x5, x8
    .endm
    .macro call_second
    addi x10, x18, 0
    b.call x7, x6, x9
    .endm

_start:
    trap_to handler
    lla x7, offers
    b.launch x5, x7
    expect x5, 1
    lla x7, accepts
    b.launch x6, x7
    expect x6, 2
    lla x8, _start + 0x10000
    lla x9, _start + 0x11000
    lla x18, _start + 0x14000
    jal x0, calls
    .org 0x100
calls:
    call_first 55
    expect x10, 0
    call_second
    expect x10, 55
    call_first 66
    expect x10, 55
    call_second
    expect x10, 66
    jal x0, end
handler:
    addi x6, x0, 2
    lla x9, _start + 0x11000
    lla x18, _start + 0x14000
    call_second
    expect x10, 55
    jal x0, end
    .include "ends.inc"
    .org 0x8000
offers:
    segment 1, 2, 1, 0x80010000
    page 0x80010, PRIVATE, 5
    page 0x80014, OFFER, 3, 1
    partners 2
    # of `accepts`
    .dword 0x940b1648a4378afd, 0x882f19f66a84ae83, 0x31b6e93b39111e7b, 0x1783c977c94802ee
    .org 0x9000
accepts:
    segment 1, 2, 0, 0x80011000
    page 0x80011, PRIVATE, 5
    page 0x80014, ACCEPT, 1
    # gives the number in the page, and puts another there
    .org 0x10000
    ld x5, 0(x10)
    sd x11, 0(x10)
    addi x10, x5, 0
    b.ret
    # gives the number in the page
    .org 0x11000
    ld x10, 0(x10)
    b.ret
