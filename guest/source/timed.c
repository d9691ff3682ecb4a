/*
 * Read-write locks by a deadline, which the runtime doesn't have.
 *
 * While a thread with a deadline waits for a lock, whoever comes waits in another queue than the runtime's: that of a mutex under
 * the lock's address, the gate, whose owner is the first in the queue. One with a deadline tries, and waits at a condition under the
 * lock's address until an unlock; another one goes on to the runtime's queue. The gate is opened when the lock is had, or the
 * deadline has come.
 *
 * This file is linked where a program asks for a lock by a deadline (see guest/cc), and its calls stand for those of rwlock.c: no
 * other program's lock has a queue.
 */
#include "calls.h"
#include "clock.h"
#include "locks.h"
#include <pthread.h>
#include <stdbool.h>

/* A count that is stored under the kit's lock, which tells of no access: so it is looked at plainly, and puts nothing in an order. */
static uint32_t now(const volatile uint32_t *count) { return *count; }

/* How many threads stand in queues of all locks: an unlock looks at this, since the lock's memory may be gone by then. */
static uint32_t all_queued;

/* How many read-write locks the thread holds. It may hold the one that it asks for, and those who queue would wait for it. So
   it goes straight to the runtime. */
static _Thread_local unsigned held;

static pthread_cond_t *condition(pthread_rwlock_t *lock) { return (pthread_cond_t *)lock; }

static void add_queued(pthread_rwlock_t *lock, uint32_t number) {
    __guest_take_lock(&__guest_queue_lock);
    lock->queued += number;
    all_queued += number;
    __guest_leave_lock(&__guest_queue_lock);
}

static bool has_to_queue(const pthread_rwlock_t *lock) { return held == 0 && now(&lock->queued) != 0; }

/* At the head of the queue, by the call that tries. */
static int try_until(uint32_t call, pthread_rwlock_t *lock, const struct timespec *deadline) {
    int error, ended = 0;
    __guest_take_lock(&__guest_queue_lock);
    while ((error = object_call(call, lock, 0, 0, 0)) == EBUSY && !ended) {
        ended = pthread_cond_timedwait(condition(lock), &__guest_queue_lock.mutex, deadline);
    }
    __guest_leave_lock(&__guest_queue_lock);
    return error == EBUSY ? ended : error;
}

static int pass_gate(const pthread_rwlock_t *lock, const struct timespec *deadline) {
    if (!deadline) return object_call(CALL_MUTEX_LOCK, lock, 0, 0, 0);
    uint64_t moment = __guest_moment(deadline);
    return object_call(CALL_MUTEX_TIMEDLOCK, lock, low_word(moment), high_word(moment), 0);
}

/* With a deadline `call` is one that tries. */
static int take_in_queue(uint32_t call, pthread_rwlock_t *lock, const struct timespec *deadline) {
    int state;
    pthread_setcancelstate(PTHREAD_CANCEL_DISABLE, &state);
    add_queued(lock, 1);
    int error = pass_gate(lock, deadline);
    if (!error) {
        error = deadline ? try_until(call, lock, deadline) : object_call(call, lock, 0, 0, 0);
        object_call(CALL_MUTEX_UNLOCK, lock, 0, 0, 0);
    }
    add_queued(lock, -UINT32_C(1));
    pthread_setcancelstate(state, NULL);
    return error;
}

/* Only a thread that sees somebody in a queue takes the lock of all queues. Who is first in the queue has tried under that lock:
   so it sees the unlock, or its wait is ended. */
static void wake_first(pthread_rwlock_t *lock) {
    if (!now(&all_queued)) return;
    __guest_take_lock(&__guest_queue_lock);
    pthread_cond_signal(condition(lock));
    __guest_leave_lock(&__guest_queue_lock);
}

/* --- The calls ---------------------------------------------------------------------------------------------------- */

int pthread_rwlock_init(pthread_rwlock_t *restrict lock, const pthread_rwlockattr_t *restrict attributes) {
    (void)attributes;
    int error = object_call(CALL_RWLOCK_INIT, lock, 0, 0, 0);
    if (!error) lock->queued = 0;
    return error;
}

static int counted(int error) {
    if (!error) held++;
    return error;
}

static int take(uint32_t call, pthread_rwlock_t *lock) {
    return counted(has_to_queue(lock) ? take_in_queue(call, lock, NULL) : object_call(call, lock, 0, 0, 0));
}

static int try(uint32_t call, pthread_rwlock_t *lock) {
    return has_to_queue(lock) ? EBUSY : counted(object_call(call, lock, 0, 0, 0));
}

static int take_until(uint32_t call, pthread_rwlock_t *lock, const struct timespec *deadline) {
    int error = try(call, lock);
    if (error != EBUSY) return error;
    if (__guest_moment(deadline) == NO_MOMENT) return EINVAL;
    return counted(take_in_queue(call, lock, deadline));
}

int pthread_rwlock_rdlock(pthread_rwlock_t *lock) { return take(CALL_RWLOCK_RDLOCK, lock); }

int pthread_rwlock_wrlock(pthread_rwlock_t *lock) { return take(CALL_RWLOCK_WRLOCK, lock); }

int pthread_rwlock_tryrdlock(pthread_rwlock_t *lock) { return try(CALL_RWLOCK_TRYRDLOCK, lock); }

int pthread_rwlock_trywrlock(pthread_rwlock_t *lock) { return try(CALL_RWLOCK_TRYWRLOCK, lock); }

int pthread_rwlock_unlock(pthread_rwlock_t *lock) {
    int error = object_call(CALL_RWLOCK_UNLOCK, lock, 0, 0, 0);
    if (error) return error;
    if (held) held--;
    wake_first(lock);
    return 0;
}

int pthread_rwlock_timedrdlock(pthread_rwlock_t *restrict lock, const struct timespec *restrict deadline) {
    return take_until(CALL_RWLOCK_TRYRDLOCK, lock, deadline);
}

int pthread_rwlock_timedwrlock(pthread_rwlock_t *restrict lock, const struct timespec *restrict deadline) {
    return take_until(CALL_RWLOCK_TRYWRLOCK, lock, deadline);
}

static bool is_clock(clockid_t clock) { return clock == CLOCK_REALTIME || clock == CLOCK_MONOTONIC; }

int pthread_rwlock_clockrdlock(pthread_rwlock_t *restrict lock, clockid_t clock, const struct timespec *restrict deadline) {
    return is_clock(clock) ? pthread_rwlock_timedrdlock(lock, deadline) : EINVAL;
}

int pthread_rwlock_clockwrlock(pthread_rwlock_t *restrict lock, clockid_t clock, const struct timespec *restrict deadline) {
    return is_clock(clock) ? pthread_rwlock_timedwrlock(lock, deadline) : EINVAL;
}
