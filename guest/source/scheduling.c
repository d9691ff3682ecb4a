/* Policies and priorities: who runs is decided outside, so there is one of each, and setting it changes nothing. */
#include <errno.h>
#include <pthread.h>
#include "thread.h"

int pthread_attr_getscope(const pthread_attr_t *attributes, int *scope) {
    (void)attributes;
    *scope = PTHREAD_SCOPE_SYSTEM;
    return 0;
}

int pthread_attr_setinheritsched(pthread_attr_t *attributes, int inheritance) {
    if (inheritance != PTHREAD_INHERIT_SCHED && inheritance != PTHREAD_EXPLICIT_SCHED) return EINVAL;
    attributes->inheritance = inheritance;
    return 0;
}

int pthread_attr_getinheritsched(const pthread_attr_t *attributes, int *inheritance) {
    *inheritance = attributes->inheritance;
    return 0;
}

static int check_policy(int policy) {
    return policy == SCHED_OTHER ? 0 : policy == SCHED_FIFO || policy == SCHED_RR ? ENOTSUP : EINVAL;
}

static int check_priority(int priority) { return priority == 0 ? 0 : EINVAL; }

static int check_thread(pthread_t id) { return __guest_stage_of(id) == NO_THREAD ? ESRCH : 0; }

int pthread_attr_setschedpolicy(pthread_attr_t *attributes, int policy) {
    (void)attributes;
    return check_policy(policy);
}

int pthread_attr_getschedpolicy(const pthread_attr_t *attributes, int *policy) {
    (void)attributes;
    *policy = SCHED_OTHER;
    return 0;
}

int pthread_attr_setschedparam(pthread_attr_t *attributes, const struct sched_param *of) {
    (void)attributes;
    return check_priority(of->sched_priority);
}

int pthread_attr_getschedparam(const pthread_attr_t *attributes, struct sched_param *of) {
    (void)attributes;
    of->sched_priority = 0;
    return 0;
}

int pthread_setschedparam(pthread_t id, int policy, const struct sched_param *of) {
    int error = check_thread(id);
    if (!error) error = check_policy(policy);
    return error ? error : check_priority(of->sched_priority);
}

int pthread_getschedparam(pthread_t id, int *restrict policy, struct sched_param *restrict of) {
    int error = check_thread(id);
    if (error) return error;
    *policy = SCHED_OTHER;
    of->sched_priority = 0;
    return 0;
}

int pthread_setschedprio(pthread_t id, int priority) {
    int error = check_thread(id);
    return error ? error : check_priority(priority);
}

static int priority_of(int policy) {
    if (policy == SCHED_OTHER) return 0;
    errno = EINVAL;
    return -1;
}

int sched_get_priority_max(int policy) { return priority_of(policy); }

int sched_get_priority_min(int policy) { return priority_of(policy); }

int pthread_yield(void) { return sched_yield(); }
