# The first instruction of a guest, at 0x1000: x2 is the end of memory, the other registers are 0.
    .cfi_sections .debug_frame
    .section .first, "ax", @progbits
    .globl  __guest_start
    .type   __guest_start, @function
__guest_start:
    .cfi_startproc
    .cfi_undefined ra
    j       1f
# By these twelve bytes ckrt finds where an image takes words (docs/ABI.md).
    .ascii  "CKRTWORD"
    .word   __guest_words
1:
    la      tp, __guest_first_locals
    mv      a0, sp
    call    __guest_main
    .cfi_endproc
    .size   __guest_start, . - __guest_start
