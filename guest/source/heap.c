/* What malloc takes its memory from. The C library calls it under its lock. */
#include "heap.h"
#include <errno.h>
#include <malloc.h>
#include <stddef.h>
#include <unistd.h>

static char *heap_begin, *heap_top, *heap_end;

void __guest_set_heap(char *begin, char *end) {
    heap_begin = heap_top = begin;
    heap_end = end;
    tell_unowned(begin, (size_t)(end - begin));
}

/* Who asks how much is free holds no lock: a word is loaded at once. */
static char *top_now(void) { return *(char *volatile *)&heap_top; }
static void set_top(char *top) { *(char *volatile *)&heap_top = top; }

size_t __guest_free_bytes(void) { return mallinfo().fordblks + (size_t)(heap_end - top_now()); }

void *sbrk(ptrdiff_t bytes) {
    if (bytes > heap_end - heap_top || bytes < heap_begin - heap_top) {
        errno = ENOMEM;
        return (void *)-1;
    }
    char *old_top = heap_top;
    set_top(old_top + bytes);
    return old_top;
}
