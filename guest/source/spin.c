/* Spin locks: mutexes, so that a thread waits without running. */
#include "calls.h"
#include <pthread.h>

int pthread_spin_init(pthread_spinlock_t *lock, int shared) {
    if (shared != PTHREAD_PROCESS_PRIVATE) return ENOTSUP;
    return object_call(CALL_MUTEX_INIT, lock, PTHREAD_MUTEX_NORMAL, 0, 0);
}

int pthread_spin_destroy(pthread_spinlock_t *lock) { return object_call(CALL_MUTEX_DESTROY, lock, 0, 0, 0); }

int pthread_spin_lock(pthread_spinlock_t *lock) { return object_call(CALL_MUTEX_LOCK, lock, 0, 0, 0); }

int pthread_spin_trylock(pthread_spinlock_t *lock) { return object_call(CALL_MUTEX_TRYLOCK, lock, 0, 0, 0); }

int pthread_spin_unlock(pthread_spinlock_t *lock) { return object_call(CALL_MUTEX_UNLOCK, lock, 0, 0, 0); }
