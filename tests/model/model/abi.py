"""Numbers that a guest and the machine agree on: calls, errors, and the two gate addresses."""
from enum import IntEnum

ALL_ONES = 0xFFFFFFFF
PAGE = 4096
# A thread that returns here ends with x10; an unwinding thread that returns to the other goes to its next handler.
RETURN_GATE = 0xFFFFFFF0
UNWIND_GATE = 0xFFFFFFF4
MOMENTS = 1 << 63  # clock and deadlines lie below


class Call(IntEnum):
    """The number in x17 of an ECALL."""
    EXIT = 1
    PUTC = 2
    GETC = 3
    CLOCK = 4
    SLEEP_UNTIL = 5
    CREATE = 10
    JOIN = 11
    DETACH = 12
    THREAD_EXIT = 13
    SELF = 14
    MUTEX_INIT = 20
    MUTEX_DESTROY = 21
    MUTEX_LOCK = 22
    MUTEX_TRYLOCK = 23
    MUTEX_TIMEDLOCK = 24
    MUTEX_UNLOCK = 25
    COND_INIT = 30
    COND_DESTROY = 31
    COND_WAIT = 32
    COND_TIMEDWAIT = 33
    COND_SIGNAL = 34
    COND_BROADCAST = 35
    BARRIER_INIT = 40
    BARRIER_DESTROY = 41
    BARRIER_WAIT = 42
    RWLOCK_INIT = 50
    RWLOCK_DESTROY = 51
    RWLOCK_RDLOCK = 52
    RWLOCK_TRYRDLOCK = 53
    RWLOCK_WRLOCK = 54
    RWLOCK_TRYWRLOCK = 55
    RWLOCK_UNLOCK = 56
    CANCEL = 60
    TESTCANCEL = 61
    SETCANCELSTATE = 62
    SETCANCELTYPE = 63
    CLEANUP_PUSH = 64
    CLEANUP_POP = 65
    KEY_CREATE = 70
    KEY_DELETE = 71
    SETSPECIFIC = 72
    GETSPECIFIC = 73


KEY_CALLS = (Call.KEY_CREATE, Call.KEY_DELETE, Call.SETSPECIFIC, Call.GETSPECIFIC)


class Error(IntEnum):
    """What a refused call leaves in x10."""
    EPERM = 1
    ESRCH = 3
    EAGAIN = 11
    EBUSY = 16
    EINVAL = 22
    EDEADLK = 35
    ENOSYS = 38
    ETIMEDOUT = 110
