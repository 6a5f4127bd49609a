# Without translation each page is at its own address: one outside RAM, and one at an address of
# more bits, are nowhere. Nobody but the module has its pages then, in either mode.
# ram 32
#: refuse N 0 launch -3
#: refuse N 0 launch -3
#: launch N 0 1 I
    .include "secure.inc"
_start:
    lla x8, text
    # behind RAM
    lui x7, 0x80
    addi x7, x7, 32
    sd x7, 96(x8)
    b.launch x5, x8
    expect x5, -3
    # page 17 with a bit more
    addi x7, x0, 1
    slli x7, x7, 51
    lui x6, 0x80
    add x7, x7, x6
    addi x7, x7, 17
    sd x7, 96(x8)
    b.launch x5, x8
    expect x5, -3
    addi x6, x6, 17
    sd x6, 96(x8)
    b.launch x5, x8
    expect x5, 1
    jal x0, end
    .include "ends.inc"
    .include "module_text.inc"
    .include "module_pages.inc"
