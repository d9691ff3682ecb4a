/* Read-write locks. The weak calls are those of timed.c where that is linked. */
#include "calls.h"
#include <pthread.h>

int pthread_rwlockattr_init(pthread_rwlockattr_t *attributes) {
    attributes->kind = PTHREAD_RWLOCK_PREFER_READER_NP;
    return 0;
}

int pthread_rwlockattr_destroy(pthread_rwlockattr_t *attributes) {
    (void)attributes;
    return 0;
}

int pthread_rwlockattr_setkind_np(pthread_rwlockattr_t *attributes, int kind) {
    if (kind < PTHREAD_RWLOCK_PREFER_READER_NP || kind > PTHREAD_RWLOCK_PREFER_WRITER_NONRECURSIVE_NP) return EINVAL;
    attributes->kind = kind;
    return 0;
}

int pthread_rwlockattr_getkind_np(const pthread_rwlockattr_t *attributes, int *kind) {
    *kind = attributes->kind;
    return 0;
}

#define WEAK __attribute__((weak))

WEAK int pthread_rwlock_init(pthread_rwlock_t *restrict lock, const pthread_rwlockattr_t *restrict attributes) {
    (void)attributes;
    return object_call(CALL_RWLOCK_INIT, lock, 0, 0, 0);
}

int pthread_rwlock_destroy(pthread_rwlock_t *lock) { return object_call(CALL_RWLOCK_DESTROY, lock, 0, 0, 0); }

WEAK int pthread_rwlock_rdlock(pthread_rwlock_t *lock) { return object_call(CALL_RWLOCK_RDLOCK, lock, 0, 0, 0); }

WEAK int pthread_rwlock_wrlock(pthread_rwlock_t *lock) { return object_call(CALL_RWLOCK_WRLOCK, lock, 0, 0, 0); }

WEAK int pthread_rwlock_tryrdlock(pthread_rwlock_t *lock) { return object_call(CALL_RWLOCK_TRYRDLOCK, lock, 0, 0, 0); }

WEAK int pthread_rwlock_trywrlock(pthread_rwlock_t *lock) { return object_call(CALL_RWLOCK_TRYWRLOCK, lock, 0, 0, 0); }

WEAK int pthread_rwlock_unlock(pthread_rwlock_t *lock) { return object_call(CALL_RWLOCK_UNLOCK, lock, 0, 0, 0); }
