/*
 * calloc, which stores its zeros itself: those that the C library's malloc puts into each block count as nothing stored to `ckrt check`.
 */
#include "heap.h"
#include <errno.h>
#include <stdlib.h>
#include <string.h>

#ifdef GUEST_FILES
#define KIT_NAME(name) __guest_##name
#else
#define KIT_NAME(name) __wrap_##name
#endif

void *KIT_NAME(calloc)(size_t count, size_t size) {
    size_t bytes;
    if (__builtin_mul_overflow(count, size, &bytes)) {
        errno = ENOMEM;
        return NULL;
    }
    void *block = __guest_take(bytes);
    return block ? memset(block, 0, bytes) : NULL;
}
