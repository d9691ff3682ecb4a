/* The C library's <setjmp.h>, and jumps that set the thread's mask of signals back to what it was. */
#ifndef GUEST_SETJMP_H
#define GUEST_SETJMP_H

#pragma GCC system_header

#include_next <setjmp.h>

#ifdef __cplusplus
extern "C" {
#endif

typedef struct {
    jmp_buf registers;
    int has_mask;
    unsigned long mask;
} sigjmp_buf[1];

#define sigsetjmp(place, with_mask) (__guest_keep_mask((place), (with_mask)), setjmp((place)[0].registers))

void __guest_keep_mask(sigjmp_buf place, int with_mask);
void siglongjmp(sigjmp_buf place, int value) __attribute__((noreturn));

#ifdef __cplusplus
}
#endif

#endif
