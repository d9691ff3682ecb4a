/* The calls of the runtime: ECALL with the number in x17 and the arguments in x10 to x13; answers in x10 and x11. */
#ifndef GUEST_CALLS_H
#define GUEST_CALLS_H

/* Numbers, for C and for the assembler. */
#define CALL_EXIT 1
#define CALL_PUTC 2
#define CALL_GETC 3
#define CALL_CLOCK 4
#define CALL_SLEEP_UNTIL 5
#define CALL_CREATE 10
#define CALL_JOIN 11
#define CALL_DETACH 12
#define CALL_THREAD_EXIT 13
#define CALL_SELF 14
#define CALL_MUTEX_INIT 20
#define CALL_MUTEX_DESTROY 21
#define CALL_MUTEX_LOCK 22
#define CALL_MUTEX_TRYLOCK 23
#define CALL_MUTEX_TIMEDLOCK 24
#define CALL_MUTEX_UNLOCK 25
#define CALL_COND_INIT 30
#define CALL_COND_DESTROY 31
#define CALL_COND_WAIT 32
#define CALL_COND_TIMEDWAIT 33
#define CALL_COND_SIGNAL 34
#define CALL_COND_BROADCAST 35
#define CALL_BARRIER_INIT 40
#define CALL_BARRIER_DESTROY 41
#define CALL_BARRIER_WAIT 42
#define CALL_RWLOCK_INIT 50
#define CALL_RWLOCK_DESTROY 51
#define CALL_RWLOCK_RDLOCK 52
#define CALL_RWLOCK_TRYRDLOCK 53
#define CALL_RWLOCK_WRLOCK 54
#define CALL_RWLOCK_TRYWRLOCK 55
#define CALL_RWLOCK_UNLOCK 56
#define CALL_CANCEL 60
#define CALL_TESTCANCEL 61
#define CALL_SETCANCELSTATE 62
#define CALL_SETCANCELTYPE 63
#define CALL_CLEANUP_PUSH 64
#define CALL_CLEANUP_POP 65
#define CALL_KEY_CREATE 70
#define CALL_KEY_DELETE 71
#define CALL_SETSPECIFIC 72
#define CALL_GETSPECIFIC 73

/* A thread that returns here while it unwinds goes to its next handler, or ends where none is left. */
#define UNWINDING_GATE 0xFFFFFFF4

#ifndef __ASSEMBLER__

#include "stack.h"
#include <errno.h>
#include <stdint.h>

struct answer {
    uint32_t result; /* 0, an error number of the runtime, or what the call gives */
    uint32_t value;  /* the second answer, of the calls that have one and only with result 0 */
};

static inline struct answer runtime(uint32_t number, uint32_t first, uint32_t second, uint32_t third, uint32_t fourth) {
    register uint32_t x10 __asm__("a0") = first;
    register uint32_t x11 __asm__("a1") = second;
    register uint32_t x12 __asm__("a2") = third;
    register uint32_t x13 __asm__("a3") = fourth;
    register uint32_t x17 __asm__("a7") = number;
    __asm__ volatile("ecall" : "+r"(x10), "+r"(x11) : "r"(x12), "r"(x13), "r"(x17) : "memory");
    return (struct answer){x10, x11};
}

/* A call that doesn't return. A trap follows it: the pc after the call then lies in the function that made it, and not in the
   next one. */
__attribute__((noreturn)) static inline void last_call(uint32_t number, uint32_t first) {
    runtime(number, first, 0, 0, 0);
    __builtin_trap();
}

/* The runtime counts some errors otherwise than the C library's <errno.h>; the others are alike. */
static inline int error_of(uint32_t result) {
    if (result == 0) return 0;
    switch (result) {
    case 35: return EDEADLK;
    case 38: return ENOSYS;
    case 110: return ETIMEDOUT;
    default: return (int)result;
    }
}

/* A call with one answer about an object, which is named by its address. */
static inline int object_call(uint32_t number, const volatile void *object, uint32_t second, uint32_t third,
                              uint32_t fourth) {
    glance_at_stack();
    return error_of(runtime(number, (uint32_t)object, second, third, fourth).result);
}

#endif
#endif
