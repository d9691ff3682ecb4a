"""Calls on mutexes, conditions, barriers and read-write locks; to import this module enters them into the table."""
from model.abi import ALL_ONES, MOMENTS, Call, Error
from model.calls import BLOCKED, guest_call, moment_of
from model.objects import (BARRIERS, COUNT_LIMIT, Mutex, MutexKind, grant_lock, is_lock_table_full, is_mutex_busy,
                           is_mutex_table_full, lock_of, locks_in_use, mutex_of, release_mutex, retake_mutex, try_mutex,
                           waiters_of_lock)
from model.threads import WaitKind


@guest_call(Call.MUTEX_INIT, arguments=2)
def mutex_init(state, caller, address, kind):
    if kind > MutexKind.ERRORCHECK:
        return Error.EINVAL
    if is_mutex_busy(state, address):
        return Error.EBUSY
    if kind != MutexKind.NORMAL and is_mutex_table_full(state, address):
        return Error.EAGAIN
    mutex_of(state, address).kind = MutexKind(kind)
    return 0


@guest_call(Call.MUTEX_DESTROY, arguments=1)
def mutex_destroy(state, caller, address):
    if is_mutex_busy(state, address):
        return Error.EBUSY
    state.mutexes[address] = Mutex()
    return 0


def is_relocked(state, caller, address):
    """An errorcheck mutex refuses its owner; a normal one lets it wait for ever."""
    mutex = mutex_of(state, address)
    return mutex.owner == caller and mutex.kind == MutexKind.ERRORCHECK


@guest_call(Call.MUTEX_LOCK, arguments=1)
def mutex_lock(state, caller, address):
    answer = try_mutex(state, address, caller)
    if answer is not None:
        return answer
    if is_relocked(state, caller, address):
        return Error.EDEADLK
    state.block(caller, WaitKind.LOCK, address)
    return BLOCKED


@guest_call(Call.MUTEX_TRYLOCK, arguments=1)
def mutex_trylock(state, caller, address):
    answer = try_mutex(state, address, caller)
    return Error.EBUSY if answer is None else answer


@guest_call(Call.MUTEX_TIMEDLOCK, arguments=3)
def mutex_timedlock(state, caller, address, low, high):
    """The moment is looked at only where lock would wait."""
    answer = try_mutex(state, address, caller)
    if answer is not None:
        return answer
    if is_relocked(state, caller, address):
        return Error.EDEADLK
    moment = moment_of(low, high)
    if moment >= MOMENTS:
        return Error.EINVAL
    if moment <= state.clock:
        return Error.ETIMEDOUT
    state.block(caller, WaitKind.LOCK, address, deadline=moment)
    return BLOCKED


@guest_call(Call.MUTEX_UNLOCK, arguments=1)
def mutex_unlock(state, caller, address):
    if mutex_of(state, address).owner != caller:
        return Error.EPERM
    release_mutex(state, address)
    return 0


def waiters_of_condition(state, address):
    return state.queue_of(address, WaitKind.CONDITION)


@guest_call(Call.COND_INIT, arguments=1)
@guest_call(Call.COND_DESTROY, arguments=1)
def cond_init_or_destroy(state, caller, address):
    return Error.EBUSY if waiters_of_condition(state, address) else 0


def refusal_of_wait(state, caller, address, mutex):
    """The mutex must be the caller's, and all waiters of a condition name one mutex."""
    if mutex_of(state, mutex).owner != caller:
        return Error.EPERM
    if any(wait.mutex != mutex for wait in waiters_of_condition(state, address)):
        return Error.EINVAL
    return None


@guest_call(Call.COND_WAIT, arguments=2, is_point=True)
def cond_wait(state, caller, address, mutex):
    """One level is released, as by unlock."""
    refusal = refusal_of_wait(state, caller, address, mutex)
    if refusal is not None:
        return refusal
    release_mutex(state, mutex)
    state.block(caller, WaitKind.CONDITION, address, mutex=mutex)
    return BLOCKED


@guest_call(Call.COND_TIMEDWAIT, arguments=4, is_point=True)
def cond_timedwait(state, caller, address, mutex, low, high):
    """Where the moment has come already the mutex is released and retaken nevertheless."""
    moment = moment_of(low, high)
    if moment >= MOMENTS:
        return Error.EINVAL
    refusal = refusal_of_wait(state, caller, address, mutex)
    if refusal is not None:
        return refusal
    release_mutex(state, mutex)
    if moment <= state.clock:
        return Error.ETIMEDOUT if retake_mutex(state, mutex, caller, Error.ETIMEDOUT) else BLOCKED
    state.block(caller, WaitKind.CONDITION, address, mutex=mutex, deadline=moment)
    return BLOCKED


def wake(state, waits):
    for wait in waits:
        state.end_wait(wait, "signalled")
        retake_mutex(state, wait.mutex, wait.thread, 0)
    return 0


@guest_call(Call.COND_SIGNAL, arguments=1)
def cond_signal(state, caller, address):
    return wake(state, waiters_of_condition(state, address)[:1])


@guest_call(Call.COND_BROADCAST, arguments=1)
def cond_broadcast(state, caller, address):
    return wake(state, waiters_of_condition(state, address))


def waiters_of_barrier(state, address):
    return state.queue_of(address, WaitKind.BARRIER)


@guest_call(Call.BARRIER_INIT, arguments=2)
def barrier_init(state, caller, address, count):
    if waiters_of_barrier(state, address):
        return Error.EBUSY
    if count == 0:
        return Error.EINVAL
    if address not in state.barriers and len(state.barriers) >= BARRIERS:
        return Error.EAGAIN
    state.barriers[address] = count
    return 0


@guest_call(Call.BARRIER_DESTROY, arguments=1)
def barrier_destroy(state, caller, address):
    if waiters_of_barrier(state, address):
        return Error.EBUSY
    if address not in state.barriers:
        return Error.EINVAL
    del state.barriers[address]
    return 0


@guest_call(Call.BARRIER_WAIT, arguments=1)
def barrier_wait(state, caller, address):
    """The last one of the count gets all ones, the others 0; the barrier is then as new."""
    if address not in state.barriers:
        return Error.EINVAL
    waits = waiters_of_barrier(state, address)
    if len(waits) + 1 < state.barriers[address]:
        state.block(caller, WaitKind.BARRIER, address)
        return BLOCKED
    for wait in waits:
        state.end_wait(wait, "granted")
        state.set_result(wait.thread, 0)
    return ALL_ONES


@guest_call(Call.RWLOCK_INIT, arguments=1)
@guest_call(Call.RWLOCK_DESTROY, arguments=1)
def rwlock_init_or_destroy(state, caller, address):
    return Error.EBUSY if address in locks_in_use(state) else 0


def try_to_read(state, caller, address):
    """The answer of rdlock where it is had or refused without waiting; else None.

    Who reads already may read again though a writer waits; a new reader stands behind every waiter.
    """
    lock = lock_of(state, address)
    if caller in lock.readers:
        if lock.readers[caller] >= COUNT_LIMIT:
            return Error.EAGAIN
        lock.readers[caller] += 1
        return 0
    if is_lock_table_full(state, address):
        return Error.EAGAIN
    if lock.writer or waiters_of_lock(state, address):
        return None
    lock.readers[caller] = 1
    return 0


def answer_or_wait(state, caller, kind, address, answer):
    """The answer, where there is one; else the caller waits."""
    if answer is None:
        state.block(caller, kind, address)
        return BLOCKED
    return answer


@guest_call(Call.RWLOCK_RDLOCK, arguments=1)
def rwlock_rdlock(state, caller, address):
    if lock_of(state, address).writer == caller:
        return Error.EDEADLK
    answer = try_to_read(state, caller, address)
    return answer_or_wait(state, caller, WaitKind.READ, address, answer)


@guest_call(Call.RWLOCK_TRYRDLOCK, arguments=1)
def rwlock_tryrdlock(state, caller, address):
    answer = try_to_read(state, caller, address)
    return Error.EBUSY if answer is None else answer


def try_to_write(state, caller, address):
    """The answer of wrlock to one who holds nothing, where it is had or refused without waiting; else None."""
    if is_lock_table_full(state, address):
        return Error.EAGAIN
    lock = lock_of(state, address)
    if lock.writer or lock.readers:
        return None
    lock.writer = caller
    return 0


def holds_lock(state, caller, address):
    lock = lock_of(state, address)
    return lock.writer == caller or caller in lock.readers


@guest_call(Call.RWLOCK_WRLOCK, arguments=1)
def rwlock_wrlock(state, caller, address):
    if holds_lock(state, caller, address):
        return Error.EDEADLK
    answer = try_to_write(state, caller, address)
    return answer_or_wait(state, caller, WaitKind.WRITE, address, answer)


@guest_call(Call.RWLOCK_TRYWRLOCK, arguments=1)
def rwlock_trywrlock(state, caller, address):
    if holds_lock(state, caller, address):
        return Error.EBUSY
    answer = try_to_write(state, caller, address)
    return Error.EBUSY if answer is None else answer


@guest_call(Call.RWLOCK_UNLOCK, arguments=1)
def rwlock_unlock(state, caller, address):
    if not holds_lock(state, caller, address):
        return Error.EPERM
    lock = lock_of(state, address)
    if lock.writer == caller:
        lock.writer = 0
    else:
        lock.readers[caller] -= 1
        if lock.readers[caller] == 0:
            del lock.readers[caller]
    grant_lock(state, address)
    return 0
