/* Joins that don't wait, or not for ever. The runtime's join has no deadline, so a thread with one looks again each tick. */
#include "calls.h"
#include "clock.h"
#include "thread.h"

/* Whether a join would wait: what else is wrong with it the join says. */
static bool would_wait(pthread_t id) { return __guest_stage_of(id) == GOES_ON && id != pthread_self(); }

/* The thread has left, so the join ends within a few of its steps: no cancellation point. */
int pthread_tryjoin_np(pthread_t id, void **value) {
    int state;
    if (would_wait(id)) return EBUSY;
    pthread_setcancelstate(PTHREAD_CANCEL_DISABLE, &state);
    int error = pthread_join(id, value);
    pthread_setcancelstate(state, NULL);
    return error;
}

int pthread_timedjoin_np(pthread_t id, void **value, const struct timespec *deadline) {
    uint64_t moment = deadline ? __guest_moment(deadline) : NO_MOMENT - 1;
    while (deadline && would_wait(id)) {
        uint64_t now = __guest_now();
        if (moment == NO_MOMENT) return EINVAL;
        if (now >= moment) return ETIMEDOUT;
        runtime(CALL_SLEEP_UNTIL, low_word(now + 1), high_word(now + 1), 0, 0);
    }
    return pthread_join(id, value);
}

int pthread_clockjoin_np(pthread_t id, void **value, clockid_t clock, const struct timespec *deadline) {
    if (clock != CLOCK_REALTIME && clock != CLOCK_MONOTONIC) return EINVAL;
    return pthread_timedjoin_np(id, value, deadline);
}
