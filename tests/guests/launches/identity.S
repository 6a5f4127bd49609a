# A launch gives an id, and an identity that is SHA-256 of the text and of both pages. A second one
# of the same text finds the pages owned.
# ram 32
#: launch N 0 1 I
#: refuse N 0 launch -4
    .include "secure.inc"
_start:
    lla x8, text
    b.launch x5, x8
    expect x5, 1
    b.launch x6, x8
    expect x6, -4
    jal x0, end
    .include "ends.inc"
    .include "module_text.inc"
    .include "module_pages.inc"
