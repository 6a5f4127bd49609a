# Start and trap entry of a guest in C: `void run(void)` is the guest, `void handle_trap(struct frame *)`
# its handler of traps. When run returns the machine is shut down.

        .equ    SHUTDOWN, 8
        .equ    FRAME, 32 * 8           # x0 to x31

        .section .text.start, "ax"
        .globl  _start
_start:
        la      sp, stack_top
        la      t0, trap_entry
        csrw    stvec, t0
        call    run
        .globl  shut_down
shut_down:
        li      a7, SHUTDOWN
        ecall

        .balign 4
trap_entry:
        addi    sp, sp, -FRAME
        sd      x0, 0(sp)
        sd      x1, 8(sp)
        .irp    n, 3, 4, 5, 6, 7, 8, 9, 10, 11, 12, 13, 14, 15, 16, 17, 18, 19, 20, 21, 22, 23, 24, 25, 26, 27, 28, 29, 30, 31
        sd      x\n, 8 * \n(sp)
        .endr
        addi    t0, sp, FRAME
        sd      t0, 16(sp)              # sp as it was
        mv      a0, sp
        call    handle_trap
        ld      x1, 8(sp)
        .irp    n, 3, 4, 5, 6, 7, 8, 9, 10, 11, 12, 13, 14, 15, 16, 17, 18, 19, 20, 21, 22, 23, 24, 25, 26, 27, 28, 29, 30, 31
        ld      x\n, 8 * \n(sp)
        .endr
        ld      sp, 16(sp)
        sret
