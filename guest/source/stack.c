/*
 * Guards of stacks. Memory has no pages that would catch an overflow, so each stack has known words below it. They
 * are looked at in the kit's calls: a thread is stopped at the first call that it makes with a stack that has
 * overflowed, or when it ends.
 */
#include "stack.h"
#include "calls.h"

enum { STACK_SHARE = 16, MOST_STACK = 65536, STATUS_OF_ABORT = 134 };

_Thread_local const uint32_t *__guest_guard;

size_t __guest_usual_stack(size_t free, size_t least) {
    size_t share = free / STACK_SHARE & -(size_t)STACK_ALIGNMENT;
    return share < least ? least : share > MOST_STACK ? MOST_STACK : share;
}

void __guest_write_guard(uint32_t *guard) {
    for (int i = 0; i < GUARD_WORDS; i++) guard[i] = GUARD_WORD;
}

void __guest_check_stack(void) {
    const uint32_t *guard = __guest_guard;
    glance_at_stack();
    for (int i = 0; i < GUARD_WORDS; i++) {
        if (guard[i] != GUARD_WORD) __guest_stack_overflowed();
    }
}

#ifndef GUEST_FILES /* whose own are in files/frames.c */

void __guest_say(const char *text) {
    for (; *text; text++) runtime(CALL_PUTC, (unsigned char)*text, 0, 0, 0);
}

void __guest_say_number(uint32_t number) {
    char digits[11], *at = digits + sizeof digits - 1;
    *at = 0;
    do *--at = (char)('0' + number % 10);
    while (number /= 10);
    __guest_say(at);
}

void __guest_stop(int status) {
    last_call(CALL_EXIT, (uint32_t)status);
}

#endif

void __guest_stack_overflowed(void) {
    runtime(CALL_SETCANCELSTATE, 1, 0, 0, 0);
    __guest_say("stack of thread ");
    __guest_say_number(runtime(CALL_SELF, 0, 0, 0, 0).result);
    __guest_say(" overflowed\n");
    __guest_stop(STATUS_OF_ABORT);
}
