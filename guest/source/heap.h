/* The heap lies between the program, with main's arguments behind it, and the first thread's stack. */
#ifndef GUEST_HEAP_H
#define GUEST_HEAP_H

#include <stdbool.h>
#include <stddef.h>
#include <stdint.h>

void __guest_set_heap(char *begin, char *end);

/* How many bytes malloc has left, in however many pieces. */
size_t __guest_free_bytes(void);

/* malloc, without the zeros that the C library's writes into each block. */
void *__guest_take(size_t bytes);

/* How the thread takes a block just now. Volatile: to the compiler malloc reads no variable. */
struct taking {
    volatile bool as_it_is; /* without zeros */
    volatile size_t asked; /* one more than the bytes that were asked for; 0: the heap makes of them what it wants */
    void *volatile given; /* the last block that was told as given */
};
extern _Thread_local struct taking __guest_taking;

/* A block that has so many bytes is told as given, or as many of them as were asked for: the answer is how many were told. */
size_t __guest_give(void *block, size_t has);

/*
 * What is told to those who look back (docs/ABI.md), by instructions that do nothing: SLT and SLTU with rd x0.
 */

/* Memory is given: a block of so many bytes, and the word before it, which is the heap's own. */
static inline void tell_given(void *block, size_t bytes) {
    size_t rest = -bytes % sizeof(uint32_t); /* of the last word, which aren't the block's */
    uintptr_t from = (uintptr_t)block - sizeof(uint32_t) + rest;
    __asm__ volatile("slt x0, %0, %1" : : "r"(from), "r"(sizeof(uint32_t) + bytes + rest) : "memory");
}

/* A block is given back. */
static inline void tell_given_back(void *block) { __asm__ volatile("sltu x0, %0, x0" : : "r"(block) : "memory"); }

/* So many bytes from here on are no block's. */
static inline void tell_unowned(void *from, size_t bytes) {
    __asm__ volatile("sltu x0, %0, %1" : : "r"(from), "r"(bytes) : "memory");
}

/* What a block has after the last word of these bytes is nobody's. Where that is told while the block is given, it counts as never
 * stored. */
static inline void tell_rest(void *block, size_t bytes, size_t has) {
    size_t whole = bytes + -bytes % sizeof(uint32_t);
    if (has > whole) tell_unowned((char *)block + whole, has - whole);
}

#endif
