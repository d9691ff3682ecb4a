/* Waits at conditions that end now and then though nobody signalled, as POSIX lets them (pthread_cond_wait). The option
   -spurious links these calls in front of the kit's own. */
#include "source/calls.h"
#include <pthread.h>
#include <stdbool.h>

int __real_pthread_cond_wait(pthread_cond_t *restrict condition, pthread_mutex_t *restrict mutex);
int __real_pthread_cond_timedwait(pthread_cond_t *restrict condition, pthread_mutex_t *restrict mutex,
                                  const struct timespec *restrict deadline);
int __real_pthread_cond_clockwait(pthread_cond_t *restrict condition, pthread_mutex_t *restrict mutex, clockid_t clock,
                                  const struct timespec *restrict deadline);

/* Whether the last wait of the thread ended so. Then the next one doesn't: no loop goes round by such waits alone. */
static _Thread_local bool was_spurious;

/* How many waits of the thread have been drawn for. */
static _Thread_local uint32_t drawn;

/* About every second wait is drawn to end so: by the clock, which is another one by each schedule, by the thread, and by
   how many waits it has had. */
static bool ends_spuriously(void) {
    if (was_spurious) return was_spurious = false;
    uint32_t clock = runtime(CALL_CLOCK, 0, 0, 0, 0).result;
    uint32_t mixed = clock * UINT32_C(0x9E3779B1) + runtime(CALL_SELF, 0, 0, 0, 0).result * UINT32_C(0x85EBCA77) + drawn;
    drawn = drawn + 1;
    mixed = (mixed ^ mixed >> 15) * UINT32_C(0x2C1B3C6D);
    return was_spurious = (mixed ^ mixed >> 13) & 1;
}

/* A wait until moment 0, which is over: the mutex is released and taken again, and no signal is used up. */
static int wait_spuriously(pthread_cond_t *condition, pthread_mutex_t *mutex) {
    int error = object_call(CALL_COND_TIMEDWAIT, condition, (uint32_t)mutex, 0, 0);
    return error == ETIMEDOUT ? 0 : error;
}

int __wrap_pthread_cond_wait(pthread_cond_t *restrict condition, pthread_mutex_t *restrict mutex) {
    return ends_spuriously() ? wait_spuriously(condition, mutex) : __real_pthread_cond_wait(condition, mutex);
}

int __wrap_pthread_cond_timedwait(pthread_cond_t *restrict condition, pthread_mutex_t *restrict mutex,
                                  const struct timespec *restrict deadline) {
    return ends_spuriously() ? wait_spuriously(condition, mutex)
                             : __real_pthread_cond_timedwait(condition, mutex, deadline);
}

int __wrap_pthread_cond_clockwait(pthread_cond_t *restrict condition, pthread_mutex_t *restrict mutex, clockid_t clock,
                                  const struct timespec *restrict deadline) {
    bool is_clock = clock == CLOCK_REALTIME || clock == CLOCK_MONOTONIC;
    return is_clock && ends_spuriously() ? wait_spuriously(condition, mutex)
                                         : __real_pthread_cond_clockwait(condition, mutex, clock, deadline);
}
