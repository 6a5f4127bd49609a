# Enters mode U, and takes traps from there. While the process runs, sscratch has the kernel's stack; the
# process's own stack is no place for its registers, since mode S can't store to a page of mode U.

        .equ    SPP, 1 << 8             # in sstatus: the mode that SRET goes to
        .equ    FRAME, 32 * 8           # x0 to x31

        .text
        .globl  enter_process
enter_process:                          # a0 is its pc, a1 its stack
        csrw    sepc, a0
        la      t0, stack_top
        csrw    sscratch, t0
        li      t0, SPP
        csrc    sstatus, t0
        mv      sp, a1
        .irp    n, 1, 3, 4, 5, 6, 7, 8, 9, 10, 11, 12, 13, 14, 15, 16, 17, 18, 19, 20, 21, 22, 23, 24, 25, 26, 27, 28, 29, 30, 31
        li      x\n, 0
        .endr
        sret

        .balign 4
        .globl  trap_from_process
trap_from_process:
        csrrw   sp, sscratch, sp
        addi    sp, sp, -FRAME
        sd      x0, 0(sp)
        sd      x1, 8(sp)
        .irp    n, 3, 4, 5, 6, 7, 8, 9, 10, 11, 12, 13, 14, 15, 16, 17, 18, 19, 20, 21, 22, 23, 24, 25, 26, 27, 28, 29, 30, 31
        sd      x\n, 8 * \n(sp)
        .endr
        csrr    t0, sscratch            # the process's sp
        sd      t0, 16(sp)
        mv      a0, sp
        call    handle_trap
        addi    t0, sp, FRAME
        csrw    sscratch, t0
        ld      x1, 8(sp)
        .irp    n, 3, 4, 5, 6, 7, 8, 9, 10, 11, 12, 13, 14, 15, 16, 17, 18, 19, 20, 21, 22, 23, 24, 25, 26, 27, 28, 29, 30, 31
        ld      x\n, 8 * \n(sp)
        .endr
        ld      sp, 16(sp)
        sret
