/* Barriers. */
#include "calls.h"
#include <pthread.h>

int pthread_barrierattr_init(pthread_barrierattr_t *attributes) {
    (void)attributes;
    return 0;
}

int pthread_barrierattr_destroy(pthread_barrierattr_t *attributes) {
    (void)attributes;
    return 0;
}

int pthread_barrier_init(pthread_barrier_t *restrict barrier, const pthread_barrierattr_t *restrict attributes,
                         unsigned int count) {
    (void)attributes;
    return object_call(CALL_BARRIER_INIT, barrier, count, 0, 0);
}

int pthread_barrier_destroy(pthread_barrier_t *barrier) { return object_call(CALL_BARRIER_DESTROY, barrier, 0, 0, 0); }

int pthread_barrier_wait(pthread_barrier_t *barrier) { return object_call(CALL_BARRIER_WAIT, barrier, 0, 0, 0); }
