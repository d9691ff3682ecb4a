/* Threads of ISO C (C11, 7.26): each call is one of <pthread.h>, and its error one of five results. */
#include <threads.h>
#include <errno.h>
#include <sched.h>
#include <stdint.h>

static int result_of(int error) {
    switch (error) {
    case 0: return thrd_success;
    case EBUSY: return thrd_busy;
    case ENOMEM: return thrd_nomem;
    case ETIMEDOUT: return thrd_timedout;
    default: return thrd_error;
    }
}

void call_once(once_flag *flag, void (*routine)(void)) { pthread_once(flag, routine); }

/* --- Threads ------------------------------------------------------------------------------------------------------ */

/* An int is returned where a pointer is, so a function of the one type may be called as one of the other. */
int thrd_create(thrd_t *id, thrd_start_t start, void *argument) {
    return result_of(pthread_create(id, NULL, (void *(*)(void *))(uintptr_t)start, argument));
}

thrd_t thrd_current(void) { return pthread_self(); }

int thrd_detach(thrd_t id) { return result_of(pthread_detach(id)); }

int thrd_equal(thrd_t first, thrd_t second) { return pthread_equal(first, second); }

void thrd_exit(int result) { pthread_exit((void *)(intptr_t)result); }

int thrd_join(thrd_t id, int *result) {
    void *value;
    int error = pthread_join(id, &value);
    if (!error && result) *result = (int)(intptr_t)value;
    return result_of(error);
}

/* No signal ends it, which would be -1. */
int thrd_sleep(const struct timespec *duration, struct timespec *rest) {
    return clock_nanosleep(CLOCK_REALTIME, 0, duration, rest) == 0 ? 0 : -2;
}

void thrd_yield(void) { sched_yield(); }

/* --- Values of threads -------------------------------------------------------------------------------------------- */

int tss_create(tss_t *key, tss_dtor_t destructor) { return result_of(pthread_key_create(key, destructor)); }

void tss_delete(tss_t key) { pthread_key_delete(key); }

void *tss_get(tss_t key) { return pthread_getspecific(key); }

int tss_set(tss_t key, void *value) { return result_of(pthread_setspecific(key, value)); }

/* --- Mutexes ------------------------------------------------------------------------------------------------------ */

int mtx_init(mtx_t *mutex, int type) {
    pthread_mutexattr_t attributes;
    if (type < mtx_plain || type > (mtx_recursive | mtx_timed)) return thrd_error;
    pthread_mutexattr_init(&attributes);
    if (type & mtx_recursive) pthread_mutexattr_settype(&attributes, PTHREAD_MUTEX_RECURSIVE);
    return result_of(pthread_mutex_init(mutex, &attributes));
}

void mtx_destroy(mtx_t *mutex) { pthread_mutex_destroy(mutex); }

int mtx_lock(mtx_t *mutex) { return result_of(pthread_mutex_lock(mutex)); }

int mtx_timedlock(mtx_t *restrict mutex, const struct timespec *restrict deadline) {
    return result_of(pthread_mutex_timedlock(mutex, deadline));
}

int mtx_trylock(mtx_t *mutex) { return result_of(pthread_mutex_trylock(mutex)); }

int mtx_unlock(mtx_t *mutex) { return result_of(pthread_mutex_unlock(mutex)); }

/* --- Condition variables ------------------------------------------------------------------------------------------ */

int cnd_init(cnd_t *condition) { return result_of(pthread_cond_init(condition, NULL)); }

void cnd_destroy(cnd_t *condition) { pthread_cond_destroy(condition); }

int cnd_wait(cnd_t *condition, mtx_t *mutex) { return result_of(pthread_cond_wait(condition, mutex)); }

int cnd_timedwait(cnd_t *restrict condition, mtx_t *restrict mutex, const struct timespec *restrict deadline) {
    return result_of(pthread_cond_timedwait(condition, mutex, deadline));
}

int cnd_signal(cnd_t *condition) { return result_of(pthread_cond_signal(condition)); }

int cnd_broadcast(cnd_t *condition) { return result_of(pthread_cond_broadcast(condition)); }
