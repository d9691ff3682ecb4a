// What the compiler of C++ calls: memory, the guards of local static objects, and calls that have no body.
#include "fenced.h"
#include <new>
#include <pthread.h>
#include <stdio.h>
#include <stdlib.h>

const std::nothrow_t std::nothrow{};

static void stop(const char *why) {
    fputs(why, stderr);
    abort();
}

void *operator new(size_t bytes) {
    void *block = malloc(bytes ? bytes : 1);
    if (!block) stop("operator new: the heap has no room\n");
    return block;
}

void *operator new[](size_t bytes) { return operator new(bytes); }
void *operator new(size_t bytes, const std::nothrow_t &) noexcept { return malloc(bytes ? bytes : 1); }
void *operator new[](size_t bytes, const std::nothrow_t &) noexcept { return malloc(bytes ? bytes : 1); }
void operator delete(void *block) noexcept { free(block); }
void operator delete[](void *block) noexcept { free(block); }
void operator delete(void *block, size_t) noexcept { free(block); }
void operator delete[](void *block, size_t) noexcept { free(block); }

extern "C" {

void *__dso_handle;

void __cxa_pure_virtual() { stop("a virtual function without a body was called\n"); }
void __cxa_deleted_virtual() { stop("a deleted virtual function was called\n"); }

// A local static object is made by who has the mutex under its guard's address; the guard's first byte says that it is, atomically, as others
// look at it without the mutex.
static bool is_made(const volatile char *guard) { return load_byte(reinterpret_cast<const volatile uint8_t *>(guard)) != 0; }

int __cxa_guard_acquire(volatile char *guard) {
    if (is_made(guard)) return 0;
    pthread_mutex_t *mutex = reinterpret_cast<pthread_mutex_t *>(const_cast<char *>(guard));
    if (pthread_mutex_lock(mutex) != 0) stop("a local static object: no mutex is left\n");
    if (!is_made(guard)) return 1;
    pthread_mutex_unlock(mutex);
    return 0;
}

void __cxa_guard_release(volatile char *guard) {
    store_byte(reinterpret_cast<volatile uint8_t *>(guard), 1); // behind the object
    pthread_mutex_unlock(reinterpret_cast<pthread_mutex_t *>(const_cast<char *>(guard)));
}
}
