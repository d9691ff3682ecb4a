/*
 * The locks of the C library: one for threads, one for its heap and its list of exit routines, one for atomic operations, one for
 * semaphores and the queues of read-write locks, and two for the console. Of the recursive type they are in use for good, so none is
 * refused for want of room.
 *
 * All but the input's are names where no variable can be (docs/ABI.md): to `ckrt races` they put nothing in an order, since no program
 * may rely on who printed before, or who took memory. What is accessed plainly under the first four isn't told there. So no routine of
 * a program is called under one of these, and what a program may rely on is loaded and stored atomically under it.
 */
#ifndef GUEST_LOCKS_H
#define GUEST_LOCKS_H

#define THREADS_LOCK 1
#define HEAP_LOCK 2
#define ATOMIC_LOCK 3
#define QUEUE_LOCK 4
#define OUTPUT_LOCK 5

#ifndef __ASSEMBLER__

#include "calls.h"
#include <pthread.h>

struct __lock {
    pthread_mutex_t mutex;
};

extern struct __lock __guest_threads_lock, __guest_atomic_lock, __guest_queue_lock, __guest_output_lock, __guest_input_lock;

/* Makes the locks recursive. To be called once, before the first use of any. */
void __guest_make_locks(void);

/* The mutex of typed.c would look at the memory at the lock's name. */
static inline int __guest_take_lock(struct __lock *lock) { return object_call(CALL_MUTEX_LOCK, &lock->mutex, 0, 0, 0); }
static inline int __guest_try_lock(struct __lock *lock) { return object_call(CALL_MUTEX_TRYLOCK, &lock->mutex, 0, 0, 0); }
static inline int __guest_leave_lock(struct __lock *lock) { return object_call(CALL_MUTEX_UNLOCK, &lock->mutex, 0, 0, 0); }

#endif
#endif
