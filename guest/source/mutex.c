/* Mutexes, and pthread_once over them. The weak ones are those of typed.c where that is linked. */
#include "calls.h"
#include "clock.h"
#include "fenced.h"
#include <pthread.h>

int pthread_mutexattr_init(pthread_mutexattr_t *attributes) {
    attributes->type = PTHREAD_MUTEX_DEFAULT;
    return 0;
}

int pthread_mutexattr_destroy(pthread_mutexattr_t *attributes) {
    (void)attributes;
    return 0;
}

int pthread_mutexattr_settype(pthread_mutexattr_t *attributes, int type) {
    if (type < PTHREAD_MUTEX_NORMAL || type > PTHREAD_MUTEX_ERRORCHECK) return EINVAL;
    attributes->type = type;
    return 0;
}

int pthread_mutexattr_gettype(const pthread_mutexattr_t *attributes, int *type) {
    *type = attributes->type;
    return 0;
}

__attribute__((weak)) int pthread_mutex_init(pthread_mutex_t *restrict mutex,
                                             const pthread_mutexattr_t *restrict attributes) {
    int type = attributes ? attributes->type : PTHREAD_MUTEX_DEFAULT;
    return object_call(CALL_MUTEX_INIT, mutex, (uint32_t)type, 0, 0);
}

int pthread_mutex_destroy(pthread_mutex_t *mutex) { return object_call(CALL_MUTEX_DESTROY, mutex, 0, 0, 0); }

__attribute__((weak)) int pthread_mutex_lock(pthread_mutex_t *mutex) { return object_call(CALL_MUTEX_LOCK, mutex, 0, 0, 0); }

__attribute__((weak)) int pthread_mutex_trylock(pthread_mutex_t *mutex) { return object_call(CALL_MUTEX_TRYLOCK, mutex, 0, 0, 0); }

__attribute__((weak)) int pthread_mutex_timedlock(pthread_mutex_t *restrict mutex, const struct timespec *restrict deadline) {
    uint64_t moment = __guest_moment(deadline);
    return object_call(CALL_MUTEX_TIMEDLOCK, mutex, low_word(moment), high_word(moment), 0);
}

int pthread_mutex_clocklock(pthread_mutex_t *restrict mutex, clockid_t clock,
                            const struct timespec *restrict deadline) {
    if (clock != CLOCK_REALTIME && clock != CLOCK_MONOTONIC) return EINVAL;
    return pthread_mutex_timedlock(mutex, deadline);
}

int pthread_mutex_unlock(pthread_mutex_t *mutex) { return object_call(CALL_MUTEX_UNLOCK, mutex, 0, 0, 0); }

static void unlock(void *mutex) { pthread_mutex_unlock(mutex); }

int pthread_once(pthread_once_t *once, void (*routine)(void)) {
    volatile uint32_t *is_done = (volatile uint32_t *)once;
    if (load_word(is_done)) return 0;
    pthread_mutex_t *mutex = (pthread_mutex_t *)once;
    int error = object_call(CALL_MUTEX_LOCK, mutex, 0, 0, 0);
    if (error) return error;
    pthread_cleanup_push(unlock, mutex);
    if (!load_word(is_done)) {
        routine();
        store_word(is_done, 1);
    }
    pthread_cleanup_pop(1);
    return 0;
}
