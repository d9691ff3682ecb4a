/*
 * memset by words. The C library's goes byte by byte, and malloc calls it for each block. A stack needs no zeros.
 *
 * Where malloc calls it, the block is told to `ckrt races` and `ckrt check` as memory that is given anew, before anything is stored there:
 * what its owners before did to it is no race with what is done from here on, though no lock of the kit orders the two.
 */
#include "heap.h"
#include <stdbool.h>
#include <stdint.h>
#include <string.h>

typedef uint32_t __attribute__((may_alias)) word;

/* That of the C library. The kit's own stands before it (blocks.c). */
extern const char library_malloc[] __asm__("__real_malloc");

/* Its calls lie so far behind its begin at most, and no other function does. */
enum { MALLOC_BYTES = 0xe0 };

static inline bool is_in(uintptr_t address, uintptr_t begin, size_t bytes) { return address - begin < bytes; }

/* Else the compiler would make calls of memset of these loops. */
__attribute__((optimize("no-tree-loop-distribute-patterns")))
void *memset(void *to, int byte, size_t count) {
    uintptr_t caller = (uintptr_t)__builtin_return_address(0);
    if (is_in(caller, (uintptr_t)library_malloc, MALLOC_BYTES)) count = __guest_give(to, count);
    if (__guest_taking.as_it_is) return to;
    unsigned char *at = to, *end = at + count;
    word bytes = (unsigned char)byte * UINT32_C(0x01010101);
    while (at < end && (uintptr_t)at % sizeof bytes != 0) *at++ = (unsigned char)byte;
    for (; end - at >= 16; at += 16) {
        word *words = (word *)at;
        words[0] = words[1] = words[2] = words[3] = bytes;
    }
    while (at < end) *at++ = (unsigned char)byte;
    return to;
}
