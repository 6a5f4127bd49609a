# A root that a module owns isn't read: every access traps, and none is denied.
# ram 32 steps 13
#: launch N 0 1 I
#: trap N 0 0000000000000001 0000000080000028
#: trap N 0 0000000000000001 0000000080001000
#: trap N 0 0000000000000001 0000000080001000
    .include "secure.inc"
_start:
    trap_to _start + 0x1000
    lla x8, text
    b.launch x5, x8
    lla x6, owned_root
    ld x6, 0(x6)
    csrrw x0, satp, x6
    .org 1024
owned_root:
    .dword 0x8000000000080011
    .include "module_text.inc"
    .include "module_pages.inc"
