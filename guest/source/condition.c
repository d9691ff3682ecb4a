/* Condition variables. All clocks are one, so a condition's clock is only remembered by its attributes. */
#include "calls.h"
#include "clock.h"
#include <pthread.h>

int pthread_condattr_init(pthread_condattr_t *attributes) {
    attributes->clock = CLOCK_REALTIME;
    return 0;
}

int pthread_condattr_destroy(pthread_condattr_t *attributes) {
    (void)attributes;
    return 0;
}

int pthread_condattr_setclock(pthread_condattr_t *attributes, clockid_t clock) {
    if (clock != CLOCK_REALTIME && clock != CLOCK_MONOTONIC) return EINVAL;
    attributes->clock = clock;
    return 0;
}

int pthread_condattr_getclock(const pthread_condattr_t *restrict attributes, clockid_t *restrict clock) {
    *clock = attributes->clock;
    return 0;
}

int pthread_cond_init(pthread_cond_t *restrict condition, const pthread_condattr_t *restrict attributes) {
    (void)attributes;
    return object_call(CALL_COND_INIT, condition, 0, 0, 0);
}

int pthread_cond_destroy(pthread_cond_t *condition) { return object_call(CALL_COND_DESTROY, condition, 0, 0, 0); }

int pthread_cond_wait(pthread_cond_t *restrict condition, pthread_mutex_t *restrict mutex) {
    return object_call(CALL_COND_WAIT, condition, (uint32_t)mutex, 0, 0);
}

int pthread_cond_timedwait(pthread_cond_t *restrict condition, pthread_mutex_t *restrict mutex,
                           const struct timespec *restrict deadline) {
    uint64_t moment = __guest_moment(deadline);
    return object_call(CALL_COND_TIMEDWAIT, condition, (uint32_t)mutex, low_word(moment), high_word(moment));
}

int pthread_cond_clockwait(pthread_cond_t *restrict condition, pthread_mutex_t *restrict mutex, clockid_t clock,
                           const struct timespec *restrict deadline) {
    if (clock != CLOCK_REALTIME && clock != CLOCK_MONOTONIC) return EINVAL;
    return pthread_cond_timedwait(condition, mutex, deadline);
}

int pthread_cond_signal(pthread_cond_t *condition) { return object_call(CALL_COND_SIGNAL, condition, 0, 0, 0); }

int pthread_cond_broadcast(pthread_cond_t *condition) { return object_call(CALL_COND_BROADCAST, condition, 0, 0, 0); }
