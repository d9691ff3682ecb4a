/* Semaphores: a count under one lock of the kit, and a condition of the runtime's under the semaphore's address. */
#include <semaphore.h>
#include "fenced.h"
#include "locks.h"
#include <errno.h>

static void lock(void) { __guest_take_lock(&__guest_queue_lock); }
static void unlock(void) { __guest_leave_lock(&__guest_queue_lock); }
static void unlock_at_end(void *unused) { (void)unused, unlock(); }

static pthread_cond_t *condition(sem_t *semaphore) { return (pthread_cond_t *)semaphore; }

/* Atomic: who asks for the count holds no lock, and a post is before the wait that it ends. */
static unsigned count_of(const sem_t *semaphore) { return load_word((const volatile uint32_t *)&semaphore->count); }
static void set_count(sem_t *semaphore, unsigned count) { store_word((volatile uint32_t *)&semaphore->count, count); }

static int answer(int error) {
    if (!error) return 0;
    errno = error;
    return -1;
}

int sem_init(sem_t *semaphore, int is_shared, unsigned count) {
    if (is_shared) return answer(ENOSYS);
    if (count > SEM_VALUE_MAX) return answer(EINVAL);
    semaphore->count = count;
    return 0;
}

int sem_destroy(sem_t *semaphore) { return answer(pthread_cond_destroy(condition(semaphore))); }

int sem_post(sem_t *semaphore) {
    lock();
    int error = semaphore->count == SEM_VALUE_MAX ? EOVERFLOW : 0;
    if (!error) {
        set_count(semaphore, semaphore->count + 1);
        pthread_cond_signal(condition(semaphore));
    }
    unlock();
    return answer(error);
}

int sem_trywait(sem_t *semaphore) {
    lock();
    int error = count_of(semaphore) == 0 ? EAGAIN : 0;
    if (!error) set_count(semaphore, semaphore->count - 1);
    unlock();
    return answer(error);
}

int sem_getvalue(sem_t *semaphore, int *count) {
    *count = (int)count_of(semaphore);
    return 0;
}

/* A thread that is cancelled in its wait has the lock again when the handler runs. */
static int wait(sem_t *semaphore, const struct timespec *deadline) {
    int error = 0;
    pthread_testcancel();
    lock();
    pthread_cleanup_push(unlock_at_end, NULL);
    while (count_of(semaphore) == 0 && !error) {
        error = deadline ? pthread_cond_timedwait(condition(semaphore), &__guest_queue_lock.mutex, deadline)
                         : pthread_cond_wait(condition(semaphore), &__guest_queue_lock.mutex);
    }
    if (count_of(semaphore) > 0) {
        set_count(semaphore, semaphore->count - 1);
        error = 0;
    }
    pthread_cleanup_pop(1);
    return answer(error);
}

int sem_wait(sem_t *semaphore) { return wait(semaphore, NULL); }

int sem_timedwait(sem_t *restrict semaphore, const struct timespec *restrict deadline) {
    return wait(semaphore, deadline);
}

int sem_clockwait(sem_t *restrict semaphore, clockid_t clock, const struct timespec *restrict deadline) {
    if (clock != CLOCK_REALTIME && clock != CLOCK_MONOTONIC) return answer(EINVAL);
    return wait(semaphore, deadline);
}
