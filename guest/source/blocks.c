/*
 * Blocks of the heap: the C library's calls, which tell beside what they do which block is whose (docs/ABI.md). By that `ckrt check` finds
 * what is done to memory that is no block's.
 *
 * The C library's own name is __real_..: the linker makes each call of it one of the kit's (option --wrap, see `cc`). Files have calls
 * between the two (files/room.c).
 */
#include "heap.h"
#include "locks.h"
#include <errno.h>
#include <malloc.h>
#include <stdlib.h>
#include <string.h>

#ifdef GUEST_FILES
#define KIT_NAME(name) __guest_##name
#else
#define KIT_NAME(name) __wrap_##name
#endif

extern struct __lock __lock___libc_recursive_mutex;

_Thread_local struct taking __guest_taking;

void *__real_malloc(size_t bytes);
void *__real_realloc(void *block, size_t bytes);
void *__real_memalign(size_t alignment, size_t bytes);
void __real_free(void *block);

void *__guest_take(size_t bytes) {
    __guest_taking.as_it_is = true;
    void *block = malloc(bytes);
    __guest_taking.as_it_is = false;
    return block;
}

size_t __guest_give(void *block, size_t has) {
    size_t asked = __guest_taking.asked, bytes = asked != 0 ? asked - 1 : has;
    __guest_taking.given = block;
    tell_given(block, bytes);
    tell_rest(block, bytes, has);
    return bytes;
}

void *KIT_NAME(malloc)(size_t bytes) {
    __guest_taking.asked = bytes + 1;
    void *block = __real_malloc(bytes);
    __guest_taking.asked = 0;
    return block;
}

/* Under the heap's lock the C library may touch what is no block's. Its `free` does so before it takes the lock. */
void __wrap_free(void *block) {
    if (!block) return;
    tell_given_back(block);
    __guest_take_lock(&__lock___libc_recursive_mutex);
    __real_free(block);
    __guest_leave_lock(&__lock___libc_recursive_mutex);
}

/* The old block is given anew where it stays. What it has more then is filled with zeros, as a new block is. */
static void given_anew(char *block, size_t had, size_t bytes) {
    tell_given(block, bytes);
    if (bytes > had) memset(block + had, 0, bytes - had);
}

/* The old block is given back, and given anew where it stays. */
static void *moved(void *old, size_t bytes) {
    size_t had = malloc_usable_size(old);
    void *block = __real_realloc(old, bytes);
    if (block == old) given_anew(block, had, bytes);
    if (!block && bytes != 0) tell_given(old, malloc_usable_size(old));
    return block;
}

void *KIT_NAME(realloc)(void *old, size_t bytes) {
    if (!old) return malloc(bytes);
    tell_given_back(old);
    __guest_take_lock(&__lock___libc_recursive_mutex);
    void *block = moved(old, bytes);
    __guest_leave_lock(&__lock___libc_recursive_mutex);
    return block;
}

size_t __real_malloc_usable_size(void *block);

/* It looks at the word before the block. */
size_t __wrap_malloc_usable_size(void *block) {
    __guest_take_lock(&__lock___libc_recursive_mutex);
    size_t bytes = __real_malloc_usable_size(block);
    __guest_leave_lock(&__lock___libc_recursive_mutex);
    return bytes;
}

/* A larger block is taken for it, of which the C library gives back what lies before and behind. */
static void *aligned(size_t alignment, size_t bytes) {
    void *block = __real_memalign(alignment, bytes);
    if (block) {
        tell_given_back(__guest_taking.given);
        tell_given(block, bytes);
    }
    return block;
}

void *KIT_NAME(memalign)(size_t alignment, size_t bytes) {
    __guest_take_lock(&__lock___libc_recursive_mutex);
    void *block = aligned(alignment, bytes);
    __guest_leave_lock(&__lock___libc_recursive_mutex);
    return block;
}

void *__wrap_aligned_alloc(size_t alignment, size_t bytes) { return memalign(alignment, bytes); }
