# The end of a thread, and the end of a clean-up handler's turn: what can't be said in C.
#include "calls.h"
#include "locks.h"
#include "stack.h"
#include "thread.h"

    .cfi_sections .debug_frame # another section would keep functions in the image that nobody calls
    .section .text.__guest_thread_end, "ax", @progbits
    .globl __guest_thread_end
    .type   __guest_thread_end, @function

# The clean-up handler that runs last, with the thread's record in x10. The thread unwinds, so no request is acted on. First
# come the destructors of its values.
#
# A detached thread frees the memory that it stands on. So it first goes over to the spare stack, and to thread-local
# variables that belong to that. One thread at a time stands there, the one that holds the lock; and from the unlock on
# it touches no memory: what is left is done in registers.
#
# Of a thread that is to be joined the stack is told as no block's, where it stands in the kit's own block (docs/ABI.md).
__guest_thread_end:
    .cfi_startproc
    .cfi_undefined ra
    mv      s0, a0
    call    __guest_run_destructors
    li      s1, THREADS_LOCK
    mv      a0, s1
    li      a7, CALL_MUTEX_LOCK
    ecall
    mv      a0, s0
    call    __guest_thread_leave
    beqz    a0, 1f
    la      sp, __guest_spare_stack_end
    la      tp, __guest_spare_locals
    call    free
    j       2f
1:  lw      t0, MEMORY_AT(s0)
    lw      t1, GUARD_AT(s0)
    bne     t0, t1, 2f
    lw      t0, STACK_AT(s0)
    lw      t1, STACK_SIZE_AT(s0)
    sltu    x0, t0, t1
2:  mv      a0, s1
    li      a7, CALL_MUTEX_UNLOCK
    ecall
    li      t0, UNWINDING_GATE
    jr      t0
    .cfi_endproc
    .size   __guest_thread_end, . - __guest_thread_end

    .section .bss.spare_stack, "aw", @nobits
    .globl  __guest_spare_guard
    .balign 16
__guest_spare_guard:
    .zero   GUARD_BYTES
    .zero   SPARE_STACK_BYTES
__guest_spare_stack_end:

    .section .text.__guest_cleanup_pop, "ax", @progbits
    .globl __guest_cleanup_pop
    .type   __guest_cleanup_pop, @function

# void __guest_cleanup_pop(int execute). The call may run the handler, which overwrites x1 and returns behind the ECALL.
__guest_cleanup_pop:
    .cfi_startproc
    addi    sp, sp, -16
    .cfi_def_cfa_offset 16
    sw      ra, 12(sp)
    .cfi_offset ra, -4
    li      a7, CALL_CLEANUP_POP
    ecall
    lw      ra, 12(sp)
    .cfi_restore ra
    addi    sp, sp, 16
    .cfi_def_cfa_offset 0
    ret
    .cfi_endproc
    .size   __guest_cleanup_pop, . - __guest_cleanup_pop
