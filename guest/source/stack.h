/* The guard of a stack: known words below it, which nothing may write. */
#ifndef GUEST_STACK_H
#define GUEST_STACK_H

#define GUARD_BYTES 64

#ifndef __ASSEMBLER__

#include <stddef.h>
#include <stdint.h>

enum { GUARD_WORDS = GUARD_BYTES / 4, STACK_ALIGNMENT = 16 };

/* A word that one instruction makes. */
#define GUARD_WORD UINT32_C(0x5AFE5000)

register uintptr_t stack_pointer __asm__("sp");

/* The calling thread's guard, which lies right below its stack. */
extern _Thread_local const uint32_t *__guest_guard;

/* Writes a guard. The thread that is to stand above it sets `__guest_guard` when it begins. */
void __guest_write_guard(uint32_t *guard);

/* Looks at the whole guard of the calling thread and at where its stack pointer is. */
void __guest_check_stack(void);

/* Tells that the calling thread's stack has overflowed, and aborts the process. */
void __guest_stack_overflowed(void) __attribute__((noreturn, cold));

/* The short look of each call on an object: at the word that is next to the stack, and at the stack pointer. A jump and
   no call, for which the compiler would make a frame in each of them. */
static inline void glance_at_stack(void) {
    const uint32_t *guard = __guest_guard;
    if (guard[GUARD_WORDS - 1] == GUARD_WORD && stack_pointer >= (uintptr_t)guard) return;
    __asm__ volatile("tail __guest_stack_overflowed");
    __builtin_unreachable();
}

/* How large a stack is where nobody says: a sixteenth of the memory that is free, but at least `least` bytes and at
   most 64 KiB. */
size_t __guest_usual_stack(size_t free, size_t least);

/* Puts a text on the console, without locks and with hardly any stack. */
void __guest_say(const char *text);
void __guest_say_number(uint32_t number);

/* Ends the process, and nothing runs before. */
void __guest_stop(int status) __attribute__((noreturn));

#endif
#endif
