# Sums the numbers from 1 to 100, then takes an exception and an interrupt on purpose, comes back from
# each by SRET, prints `sum 5050, traps 2` and shuts down.

        .equ    CONSOLE_PUTCHAR, 1
        .equ    SHUTDOWN, 8
        .equ    SOFTWARE, 1 << 1        # the supervisor software interrupt, in sie and sip
        .equ    SIE, 1 << 1             # interrupts enabled, in sstatus

        .section .text.start, "ax"
        .globl  _start
_start:
        la      sp, stack_top
        la      t0, trap_entry
        csrw    stvec, t0
        li      s0, 0                   # the sum
        li      s1, 0                   # traps taken

        li      t0, 100
1:      add     s0, s0, t0
        addi    t0, t0, -1
        bnez    t0, 1b

        ebreak                          # an exception, cause 3

        csrsi   sie, SOFTWARE
        csrsi   sip, SOFTWARE
        csrsi   sstatus, SIE            # the interrupt, cause 2^63 + 1, comes before the next instruction

        la      a0, sum_text
        call    print_text
        mv      a0, s0
        call    print_number
        la      a0, traps_text
        call    print_text
        mv      a0, s1
        call    print_number
        la      a0, end_text
        call    print_text

        li      a7, SHUTDOWN
        ecall

# Counts the trap in s1. An exception goes on after its instruction; an interrupt goes on where it
# came, once its cause is gone.
        .balign 4
trap_entry:
        csrw    sscratch, t0
        csrr    t0, scause
        bltz    t0, 1f
        csrr    t0, sepc
        addi    t0, t0, 4
        csrw    sepc, t0
        j       2f
1:      csrci   sip, SOFTWARE
2:      addi    s1, s1, 1
        csrr    t0, sscratch
        sret

# Prints the bytes from a0 up to a zero.
print_text:
        mv      t0, a0
        li      a7, CONSOLE_PUTCHAR
1:      lbu     a0, 0(t0)
        beqz    a0, 2f
        ecall                           # sets a0 to 0, and keeps the other registers
        addi    t0, t0, 1
        j       1b
2:      ret

# Prints a0, below 10,000, in decimal: each digit counts how often its power of ten can be taken away.
print_number:
        mv      t0, a0
        la      t1, powers
        li      t3, 0                   # 1 once a digit was printed
        li      a7, CONSOLE_PUTCHAR
1:      ld      t2, 0(t1)
        beqz    t2, 5f
        li      a0, '0'
2:      bltu    t0, t2, 3f
        sub     t0, t0, t2
        addi    a0, a0, 1
        li      t3, 1
        j       2b
3:      addi    t1, t1, 8
        bnez    t3, 4f
        ld      t4, 0(t1)
        bnez    t4, 1b                  # a leading zero, unless it is the last digit
4:      ecall
        j       1b
5:      ret

        .section .rodata
        .balign 8
powers:     .dword 1000, 100, 10, 1, 0
sum_text:   .asciz "sum "
traps_text: .asciz ", traps "
end_text:   .asciz "\n"
