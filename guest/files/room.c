/*
 * Room for all: where the heap has none, a file that nobody has read gives up its bytes, which went out. So a program
 * that only writes needs no memory for what it has written.
 */
#include "../source/heap.h"
#include "node.h"
#include <stdlib.h>

void *__guest_malloc(size_t bytes);
void *__guest_calloc(size_t count, size_t size);
void *__guest_realloc(void *block, size_t bytes);
void *__guest_memalign(size_t alignment, size_t bytes);

/* Whether files may make room for so many bytes: for a number that is out of reach they would give up all for nothing. */
static bool is_in_reach(size_t bytes) { return bytes > 0 && bytes <= __guest_free_bytes() + __guest_bytes_to_give_up(); }

/* A call __wrap_NAME that tries the one below it again as long as files make room. */
#define WITH_ROOM(name, below, parameters, arguments, bytes)                     \
    void *__wrap_##name parameters {                                             \
        void *block = below arguments;                                           \
        if (block) return block;                                                 \
        int state = __guest_files_lock();                                        \
        if (is_in_reach(bytes)) {                                                \
            while (!block && __guest_give_up()) block = below arguments;         \
        }                                                                        \
        __guest_files_unlock(state);                                             \
        return block;                                                            \
    }

static size_t product(size_t count, size_t size) {
    size_t bytes;
    return __builtin_mul_overflow(count, size, &bytes) ? SIZE_MAX : bytes;
}

WITH_ROOM(malloc, __guest_malloc, (size_t bytes), (bytes), bytes)
WITH_ROOM(calloc, __guest_calloc, (size_t count, size_t size), (count, size), product(count, size))
WITH_ROOM(realloc, __guest_realloc, (void *old, size_t bytes), (old, bytes), bytes)
WITH_ROOM(memalign, __guest_memalign, (size_t alignment, size_t bytes), (alignment, bytes), bytes)
