# A kernel of two harts and one module, made for the order of turns in race.script. Hart 1 loads a
# letter from a page, and hart 0 launches a module that owns the page: hart 1's next load there is
# denied. Hart 0 calls the module, and hart 1 stops it there by a software interrupt. Then both
# harts go to where it was stopped. The one that comes first resumes it, and the other is denied.

#include "secure.h"

        .equ    PUTCHAR, 1
        .equ    SHUTDOWN, 8
        .equ    HART_START, 0x48534D    # with a6 0
        .equ    SEND_IPI, 0x735049      # with a6 0
        .equ    SOFTWARE, 1 << 1        # in sie and sip
        .equ    SIE, 1 << 1             # in sstatus

        .section .text.start, "ax"
        .globl  _start
_start:                                 # hart 0
        la      t0, interrupted
        csrw    stvec, t0
        csrwi   sie, SOFTWARE
        li      a0, 1
        la      a1, second
        li      a7, HART_START
        ecall
        la      t0, segment
        b.launch s0, t0                 # hart 1 has loaded the letter once
        csrsi   sstatus, SIE
        la      t0, module_entry
        b.call  t1, s0, t0
        li      a7, PUTCHAR             # of the letter that the module answers
        ecall
        li      a7, SHUTDOWN
        ecall

# The module was stopped, so all registers are 0. SRET leads back to where it was.
        .balign 4
interrupted:
        csrr    t0, scause
        bgez    t0, late                # no interrupt: the fetch there was denied
        csrci   sip, SOFTWARE
        csrr    t0, sepc
        la      t1, place
        sd      t0, 0(t1)
        sret

# Hart 1. A trap leads it on, not back.
second:
        la      t0, denied
        csrw    stvec, t0
        la      s1, letter
        lbu     a0, 0(s1)               # from a page without owners
        li      a7, PUTCHAR
        ecall
        lbu     a0, 0(s1)               # from a page of the module

        .balign 4
denied:
        la      t0, late
        csrw    stvec, t0
        li      a0, 1 << 0              # to hart 0
        li      a1, 0
        li      a7, SEND_IPI
        ecall
        la      t1, place
wait:   ld      t0, 0(t1)
        beqz    t0, wait
        jr      t0                      # where the module was stopped

        .balign 4
late:   j       late

        .section .rodata
        .balign 2048
segment:
        .ascii  "BNSG"
        .byte   1, 1, 1, 2, 0           # version, mode S, 1 entry, 2 pages, no partners
        .zero   7
        .quad   module_entry
        .zero   7 * 8                   # there is room for 8 entries,
        .quad   module_code_page
        .byte   1, 5, 0, 0, 0, 0, 0, 0  # private, for loads and fetches
        .quad   module_data_page
        .byte   1, 3, 0, 0, 0, 0, 0, 0  # private, for loads and stores
        .zero   62 * 16                 # 64 pages
        .zero   4 * 32                  # and 4 partners

        .bss
        .balign 8
place:  .zero   8                       # the pc where the module was stopped, 0 before
