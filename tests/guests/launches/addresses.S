# Where a text may stand, without translation: at a multiple of 8 with room for it in its page, and
# in RAM. The last place of a page is one, and has no text.
# ram 32
#: refuse N 0 launch -1
#: refuse N 0 launch -1
#: refuse N 0 launch -1
#: refuse N 0 launch -16
#: refuse N 0 launch -16
#: refuse N 0 launch -16
#: refuse N 0 launch -2
#: refuse N 0 launch -2
#: refuse N 0 launch -2
#: refuse N 0 launch -2
#: refuse N 0 launch -1
    .include "secure.inc"
    .macro try code
    b.launch x5, x8
    expect x5, \code
    .endm

_start:
    lla x9, _start + 0x8000
    addi x8, x9, 4
    try -1
    # its low 12 bits are 2872
    addi x7, x0, 359
    slli x7, x7, 3
    add x8, x9, x7
    try -1
    lla x8, _start + 0x8ff8
    try -1
    # they are 2864
    addi x8, x8, -1224
    try -16
    addi x8, x9, 0
    try -16
    # the last page
    lla x8, _start + 0x1f000
    try -16
    # behind RAM, and before it
    lla x8, _start + 0x20000
    try -2
    lla x8, _start - 0x1000
    try -2
    addi x8, x0, 0
    try -2
    # RAM's address with a bit more
    addi x7, x0, 1
    slli x7, x7, 56
    add x8, x9, x7
    try -2
    # both at once
    addi x8, x0, 4
    try -1
    jal x0, end
    .include "ends.inc"
