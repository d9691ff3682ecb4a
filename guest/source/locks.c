/* The C library's locks, by its own hooks, over the runtime's mutexes. */
#include "locks.h"
#include "stack.h"
#include <stdlib.h>
#include <sys/lock.h>

/* Each has its name for an address. */
#define TEXT_OF(number) #number
#define NAMED(lock, number) __asm__(".globl " #lock "\n\t.set " #lock ", " TEXT_OF(number))

NAMED(__guest_threads_lock, THREADS_LOCK);
NAMED(__lock___libc_recursive_mutex, HEAP_LOCK);
NAMED(__guest_atomic_lock, ATOMIC_LOCK);
NAMED(__guest_queue_lock, QUEUE_LOCK);
NAMED(__guest_output_lock, OUTPUT_LOCK);

extern struct __lock __lock___libc_recursive_mutex;
struct __lock __guest_input_lock;

static int make_lock(_LOCK_T lock, int type) { return object_call(CALL_MUTEX_INIT, &lock->mutex, (uint32_t)type, 0, 0); }

void __guest_make_locks(void) {
    make_lock(&__guest_threads_lock, PTHREAD_MUTEX_RECURSIVE);
    make_lock(&__lock___libc_recursive_mutex, PTHREAD_MUTEX_RECURSIVE);
    make_lock(&__guest_output_lock, PTHREAD_MUTEX_RECURSIVE);
    make_lock(&__guest_input_lock, PTHREAD_MUTEX_RECURSIVE);
    make_lock(&__guest_atomic_lock, PTHREAD_MUTEX_RECURSIVE);
    make_lock(&__guest_queue_lock, PTHREAD_MUTEX_RECURSIVE);
}

/* These two have no answer for want of memory or of mutexes. */
static _LOCK_T new_lock(int type) {
    _LOCK_T lock = malloc(sizeof *lock);
    if (!lock || make_lock(lock, type) != 0) abort();
    return lock;
}

void __retarget_lock_init(_LOCK_T *lock) { *lock = new_lock(PTHREAD_MUTEX_NORMAL); }
void __retarget_lock_init_recursive(_LOCK_T *lock) { *lock = new_lock(PTHREAD_MUTEX_RECURSIVE); }

void __retarget_lock_close(_LOCK_T lock) {
    pthread_mutex_destroy(&lock->mutex);
    free(lock);
}
void __retarget_lock_close_recursive(_LOCK_T lock) { __retarget_lock_close(lock); }

void __retarget_lock_acquire(_LOCK_T lock) { __guest_take_lock(lock); }
/* malloc and free begin here. */
void __retarget_lock_acquire_recursive(_LOCK_T lock) {
    __guest_check_stack();
    __guest_take_lock(lock);
}

int __retarget_lock_try_acquire(_LOCK_T lock) { return __guest_try_lock(lock) == 0; }
int __retarget_lock_try_acquire_recursive(_LOCK_T lock) { return __guest_try_lock(lock) == 0; }

void __retarget_lock_release(_LOCK_T lock) { __guest_leave_lock(lock); }
void __retarget_lock_release_recursive(_LOCK_T lock) { __guest_leave_lock(lock); }
