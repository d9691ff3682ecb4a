"""Mutexes and read-write locks, named by any 32-bit address; one that was never used is free."""
from dataclasses import dataclass, field
from enum import IntEnum

from model.abi import Error
from model.threads import UNWIND, WaitKind

MUTEXES = 256
LOCKS = 64
BARRIERS = 64
COUNT_LIMIT = 65535


class MutexKind(IntEnum):
    NORMAL = 0
    RECURSIVE = 1
    ERRORCHECK = 2


@dataclass
class Mutex:
    kind: MutexKind = MutexKind.NORMAL
    owner: int = 0
    count: int = 0


@dataclass
class ReadWriteLock:
    writer: int = 0
    readers: dict = field(default_factory=dict)


def mutex_of(state, address):
    return state.mutexes.setdefault(address, Mutex())


def mutexes_named_by_waits(state):
    """A wait for a mutex names it, and so does a wait for a condition, which will retake it."""
    named = {wait.subject for wait in state.waits if wait.kind in (WaitKind.LOCK, WaitKind.RETAKE)}
    return named | {wait.mutex for wait in state.waits if wait.kind is WaitKind.CONDITION}


def is_mutex_busy(state, address):
    return mutex_of(state, address).owner != 0 or address in mutexes_named_by_waits(state)


def mutexes_in_use(state):
    """Those that are owned, of a kind other than normal, or named by a wait."""
    return {at for at, mutex in state.mutexes.items() if mutex.owner or mutex.kind} | mutexes_named_by_waits(state)


def is_mutex_table_full(state, address):
    used = mutexes_in_use(state)
    return address not in used and len(used) >= MUTEXES


def take_mutex(state, address, thread_id):
    mutex = mutex_of(state, address)
    mutex.owner, mutex.count = thread_id, 1


def try_mutex(state, address, thread_id):
    """The answer of lock where it is had without waiting: free, or recursive and the caller's; else None."""
    mutex = mutex_of(state, address)
    if mutex.owner == 0:
        if is_mutex_table_full(state, address):
            return Error.EAGAIN
        take_mutex(state, address, thread_id)
        return 0
    if mutex.owner == thread_id and mutex.kind == MutexKind.RECURSIVE:
        if mutex.count >= COUNT_LIMIT:
            return Error.EAGAIN
        mutex.count += 1
        return 0
    return None


def release_mutex(state, address):
    """Gives up one level; with the last one the longest waiting thread becomes the owner at once."""
    mutex = mutex_of(state, address)
    if mutex.count > 1:
        mutex.count -= 1
        return
    mutex.owner = mutex.count = 0
    queue = state.queue_of(address, WaitKind.LOCK, WaitKind.RETAKE)
    if queue:
        state.end_wait(queue[0], "granted")
        take_mutex(state, address, queue[0].thread)
        go_on_with_mutex(state, queue[0].thread, queue[0].result)


def go_on_with_mutex(state, thread_id, result):
    if result == UNWIND:
        state.next_handler(thread_id)
    else:
        state.set_result(thread_id, result)


def retake_mutex(state, address, thread_id, result):
    """After a condition's wait: had at once where it is free, or recursive and the thread's own; else a new wait.

    True where it was had at once.
    """
    mutex = mutex_of(state, address)
    if mutex.owner == 0:
        take_mutex(state, address, thread_id)
    elif mutex.owner == thread_id and mutex.kind == MutexKind.RECURSIVE:
        mutex.count += 1
    else:
        state.block(thread_id, WaitKind.RETAKE, address, result=result)
        return False
    go_on_with_mutex(state, thread_id, result)
    return True


def lock_of(state, address):
    return state.locks.setdefault(address, ReadWriteLock())


def waiters_of_lock(state, address):
    return state.queue_of(address, WaitKind.READ, WaitKind.WRITE)


def locks_in_use(state):
    """Those that have a writer or a reader, or that a wait names."""
    held = {at for at, lock in state.locks.items() if lock.writer or lock.readers}
    return held | {wait.subject for wait in state.waits if wait.kind in (WaitKind.READ, WaitKind.WRITE)}


def is_lock_table_full(state, address):
    used = locks_in_use(state)
    return address not in used and len(used) >= LOCKS


def grant_lock(state, address):
    """While the first waiter is admissible it gets the lock: a reader beside no writer, a writer beside no holder."""
    lock = lock_of(state, address)
    for wait in waiters_of_lock(state, address):
        if lock.writer or (wait.kind is WaitKind.WRITE and lock.readers):
            return
        if wait.kind is WaitKind.READ:
            lock.readers[wait.thread] = 1
        else:
            lock.writer = wait.thread
        state.end_wait(wait, "granted")
        state.set_result(wait.thread, 0)
