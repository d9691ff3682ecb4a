"""Which call comes next, call by call: chosen by a look at the model, so that rare answers are reached often.

A chosen call is its number and arguments.
"""
from cases.guests import unknown_calls
from cases.record_guest import LABELS
from model.abi import ALL_ONES, MOMENTS, RETURN_GATE, UNWIND_GATE, Call
from model.switches import SWITCHES
from model.threads import KEYS, WaitKind

RETURN_TO_X1 = (0, 0, 0, 0, 0, 1)  # the record of a thread that returns
TOP, FIVE_MORE = LABELS["top"], LABELS["five more"]
HANDLER_1, HANDLER_2, HANDLER_BACK = LABELS["handler 1"], LABELS["handler 2"], LABELS["handler that returns"]
CONDITIONS = [0x2000, 0x3000]
MANY = 0x10000  # where the addresses of a theme with many objects begin

# Which themes a flavour mixes, and how often.
FLAVOURS = {
    "timed": ["timed"], "ends": ["ends"], "gates": ["gates"], "mutex": ["mutex"],
    "condition": ["condition"] * 5 + ["cancel"], "condition and cancel": ["condition", "condition", "cancel", "mutex"],
    "lock": ["lock"] * 6 + ["odd", "cancel"], "barrier": ["barrier"] * 5 + ["cancel"], "thread": ["thread"] * 4 + ["cancel"],
    "cancel": ["cancel"], "cancel and stream": ["cancel", "stream", "thread"],
    "all": ["mutex", "condition", "barrier", "lock", "thread", "cancel", "stream", "odd"],
    "many mutexes": ["many_mutexes"] * 60 + ["mutex", "condition"], "many locks": ["many_locks"] * 8 + ["lock"],
    "many barriers": ["many_barriers"] * 9 + ["barrier"], "many threads": ["many_threads"] * 3 + ["thread"],
    "many handlers": ["many_handlers"] * 3 + ["cancel"],
}
FLAVOURS_OF_KEYS = {
    "keys": ["keys"] * 4 + ["thread"], "keys and ends": ["keys", "keys", "key_ends"],
    "keys and cancel": ["keys", "keys", "cancel", "key_ends", "condition"], "many keys": ["many_keys"] * 6 + ["keys", "key_ends"],
}


def flavours():
    return FLAVOURS | FLAVOURS_OF_KEYS if SWITCHES.keys else FLAVOURS


class Chooser:
    def __init__(self, chance, machine, flavour):
        self.chance, self.machine, self.flavour = chance, machine, flavour
        self.mutexes = [0x2000, 0x2004, 0x2008][:chance.choice([1, 2, 3])]

    def call_for(self, thread_id, is_alone):
        """Where the thread alone is ready, mostly a call that lets another one go on."""
        if is_alone and self.chance.random() < (0.1 if self.flavour == "ends" else 0.85):
            return self.chance.choice(self.rescues(thread_id))
        theme = self.chance.choice(flavours()[self.flavour])
        options = getattr(self, f"{theme}_options")(thread_id)
        return self.chance.choice(options)

    def rescues(self, thread_id):
        machine = self.machine
        rescues = []
        for wait in machine.waits:
            if wait.kind in (WaitKind.LOCK, WaitKind.RETAKE):
                rescues += [(Call.MUTEX_UNLOCK, wait.subject)] * (4 if self.owns(thread_id, wait.subject) else 0)
            elif wait.kind is WaitKind.CONDITION:
                rescues += [(Call.COND_SIGNAL, wait.subject), (Call.COND_BROADCAST, wait.subject)]
                rescues += [(Call.CANCEL, wait.thread), (Call.MUTEX_UNLOCK, wait.mutex)]
            elif wait.kind is WaitKind.BARRIER:
                missing = machine.barriers[wait.subject] - len(machine.queue_of(wait.subject, WaitKind.BARRIER))
                rescues += [(Call.BARRIER_WAIT, wait.subject)] if missing == 1 else []
            elif wait.kind in (WaitKind.READ, WaitKind.WRITE):
                rescues += [(Call.RWLOCK_UNLOCK, wait.subject)] * 3
            else:
                rescues += [(Call.CANCEL, wait.thread)]
        if len(machine.threads) > 12:
            return rescues or [(Call.DETACH, self.some_thread())]
        create = (Call.CREATE, TOP, 7, 0)
        return rescues + [(*create, self.chance.choice([0, 1])), (*create, 0)]

    def owns(self, thread_id, address):
        mutex = self.machine.mutexes.get(address)
        return mutex is not None and mutex.owner == thread_id

    def owned(self, thread_id):
        return [address for address in self.machine.mutexes if self.owns(thread_id, address)]

    def some_thread(self):
        return self.chance.choice(list(self.machine.threads))

    def thread_id(self):
        return self.chance.choice([0, 65, ALL_ONES, 70]) if self.chance.random() < 0.06 else self.some_thread()

    def moment(self):
        """Mostly near the clock, as low and high word."""
        chance = self.chance
        if chance.random() < 0.08:
            return chance.choice([0, ALL_ONES]), chance.choice([0x7FFFFFFF, MOMENTS >> 32, ALL_ONES])
        moment = self.machine.clock + chance.choice([-1, 0, 1, 2, 3, 5, 9]) if chance.random() < 0.8 else chance.choice([0, 1])
        return max(moment, 0) & ALL_ONES, max(moment, 0) >> 32

    def mutex_options(self, thread_id):
        chance, owned = self.chance, self.owned(thread_id)
        if owned and chance.random() < 0.35:
            return [(Call.MUTEX_UNLOCK, mutex) for mutex in owned]
        mutex = chance.choice(self.mutexes)
        timed = (Call.MUTEX_TIMEDLOCK, mutex, *self.moment())
        return [(Call.MUTEX_INIT, mutex, chance.choice([0, 1, 1, 2, 2, 3])), (Call.MUTEX_DESTROY, mutex),
                (Call.MUTEX_LOCK, mutex), (Call.MUTEX_LOCK, mutex), (Call.MUTEX_LOCK, mutex), (Call.MUTEX_TRYLOCK, mutex),
                timed, timed, (Call.MUTEX_UNLOCK, mutex)]

    def many_mutexes_options(self, thread_id):
        """Mostly free ones, so that the table fills; none where few threads are left."""
        chance, machine = self.chance, self.machine
        addresses = [MANY + 4 * number for number in range(300)]
        mutex = chance.choice(addresses)
        if machine.waits and len(machine.waits) >= len(machine.threads) - 3:
            return [(Call.MUTEX_TRYLOCK, mutex)]
        taken = {address for address, other in machine.mutexes.items() if other.owner}
        free = [address for address in addresses if address not in taken]
        if free and chance.random() < 0.93:
            mutex = chance.choice(free)
        unlocked = chance.choice(self.owned(thread_id) or [mutex])
        return ([(Call.MUTEX_LOCK, mutex)] * 6 + [(Call.MUTEX_INIT, mutex, chance.choice([0, 1, 2]))] * 4 +
                [(Call.MUTEX_TRYLOCK, mutex), (Call.MUTEX_TIMEDLOCK, mutex, *self.moment()),
                 (Call.MUTEX_UNLOCK, unlocked), (Call.MUTEX_DESTROY, mutex)])

    def condition_options(self, thread_id):
        chance, owned, which = self.chance, self.owned(thread_id), self.chance.random()
        mutex, condition = chance.choice(self.mutexes), chance.choice(CONDITIONS)
        timed = (Call.COND_TIMEDWAIT, condition)
        if which < 0.12:
            return [(Call.MUTEX_INIT, mutex, kind) for kind in (0, 1, 1, 2)]
        if owned and which < 0.6:
            mine = chance.choice(owned)
            return [(Call.COND_WAIT, condition, mine)] * 2 + [(*timed, mine, *self.moment())] * 2 + [
                (Call.MUTEX_LOCK, mine), (Call.MUTEX_UNLOCK, mine)]
        if which < 0.72:
            return [(Call.MUTEX_LOCK, mutex)]
        return [(Call.COND_SIGNAL, condition), (Call.COND_SIGNAL, condition), (Call.COND_BROADCAST, condition),
                (Call.COND_INIT, condition), (Call.COND_DESTROY, condition), (Call.COND_WAIT, condition, mutex),
                (*timed, mutex, *self.moment()), (Call.MUTEX_UNLOCK, mutex)]

    def barrier_options(self, thread_id):
        barrier = self.chance.choice([0x2000, 0x4000])
        return [(Call.BARRIER_INIT, barrier, self.chance.choice([0, 1, 2, 2, 3, 4])), (Call.BARRIER_DESTROY, barrier),
                *[(Call.BARRIER_WAIT, barrier)] * 3]

    def many_barriers_options(self, thread_id):
        barrier = MANY + 4 * self.chance.randrange(80)
        waited = barrier if self.machine.barriers.get(barrier) == 1 else 1
        return ([(Call.BARRIER_INIT, barrier, self.chance.choice([0, 1, 1, 1, 2]))] * 8 +
                [(Call.BARRIER_DESTROY, barrier), (Call.BARRIER_WAIT, waited)])

    def lock_options(self, thread_id):
        lock = self.chance.choice([0x2000, 0x2000, 0x2000, 0x5000])
        numbers = [Call.RWLOCK_INIT, Call.RWLOCK_DESTROY, Call.RWLOCK_TRYWRLOCK]
        numbers += [Call.RWLOCK_TRYRDLOCK, Call.RWLOCK_WRLOCK] * 2 + [Call.RWLOCK_RDLOCK] * 3 + [Call.RWLOCK_UNLOCK] * 4
        return [(number, lock) for number in numbers]

    def many_locks_options(self, thread_id):
        lock = MANY + 4 * self.chance.randrange(80)
        there = self.machine.locks.get(lock)
        if there and (there.writer or there.readers) and self.chance.random() < 0.95:
            return [(Call.RWLOCK_TRYRDLOCK, lock), (Call.RWLOCK_TRYWRLOCK, lock)]
        numbers = [Call.RWLOCK_TRYRDLOCK, Call.RWLOCK_TRYWRLOCK, Call.RWLOCK_UNLOCK, Call.RWLOCK_INIT]
        return [(number, lock) for number in numbers + [Call.RWLOCK_RDLOCK, Call.RWLOCK_WRLOCK] * 2]

    def thread_options(self, thread_id):
        chance = self.chance
        gate = UNWIND_GATE if chance.random() < 0.1 else TOP
        start = chance.choice([TOP, TOP, TOP, FIVE_MORE, RETURN_GATE, gate, 0x1001, 0x1002])
        create = (Call.CREATE, start, chance.choice([1, 2, 3]), 0x8000, chance.choice([0, 0, 0, 1, 1, 2, ALL_ONES]))
        returns = chance.random() < (0.05 if thread_id == 1 else 0.6)
        return [create, *[(Call.JOIN, self.thread_id())] * 3, *[(Call.DETACH, self.thread_id())] * 2,
                (Call.THREAD_EXIT, chance.choice([5, 6, ALL_ONES, 0])), (Call.SELF,),
                RETURN_TO_X1 if returns else (Call.SELF,), (Call.JOIN, thread_id)]

    def many_threads_options(self, thread_id):
        return [(Call.CREATE, start, 1, 2, is_detached) for start in (TOP, FIVE_MORE) for is_detached in (0, 1)]

    def cancel_options(self, thread_id):
        chance = self.chance
        unwind, back = (chance.random() < 0.2 for _ in range(2))
        routine = chance.choice([HANDLER_1, HANDLER_1, HANDLER_2, HANDLER_BACK, TOP, 0x1002,
                                 UNWIND_GATE if unwind else HANDLER_1, RETURN_GATE if back else HANDLER_2])
        return ([(Call.CANCEL, self.thread_id())] * 7 + [(Call.TESTCANCEL,)] * 2 +
                [(Call.SETCANCELSTATE, chance.choice([0, 0, 1, 2]))] * 2 +
                [(Call.SETCANCELTYPE, chance.choice([0, 1, 1, 2]))] * 2 +
                [(Call.CLEANUP_PUSH, routine, chance.choice([1, 2, 3, 66]))] * 4 +
                [(Call.CLEANUP_POP, chance.choice([0, 0, 1, 2]))] * 3)

    def many_handlers_options(self, thread_id):
        return [(Call.CLEANUP_PUSH, HANDLER_1, 9)] * 5 + [(Call.CLEANUP_POP, 0)]

    def timed_options(self, thread_id):
        """Many waits with deadlines near each other, several at one moment."""
        mutex, condition = 0x2000, 0x3000
        moment = (self.machine.clock + self.chance.choice([3, 4, 4, 5, 6, 7]), 0)
        if self.owns(thread_id, mutex):
            return ([(Call.COND_TIMEDWAIT, condition, mutex, *moment)] * 6 + [(Call.MUTEX_UNLOCK, mutex)] * 2 +
                    [(Call.COND_SIGNAL, condition), (Call.MUTEX_LOCK, mutex)])
        there = self.machine.mutexes.get(mutex)
        if there is None or there.owner == 0:
            return [(Call.MUTEX_LOCK, mutex)] * 4 + [(Call.MUTEX_TRYLOCK, mutex)]
        timed_lock = (Call.MUTEX_TIMEDLOCK, mutex, *moment)
        return [timed_lock, timed_lock, (Call.SLEEP_UNTIL, *moment), (Call.MUTEX_LOCK, mutex), (Call.SELF,),
                (Call.CANCEL, self.thread_id()), (Call.CREATE, TOP, 7, 0, 0)]

    def ends_options(self, thread_id):
        """Threads end, and the process with the last one."""
        return [(Call.THREAD_EXIT, 5), (Call.THREAD_EXIT, 6), (Call.CANCEL, self.thread_id()), (Call.TESTCANCEL,),
                (Call.DETACH, self.thread_id()), (Call.JOIN, self.thread_id()), (Call.MUTEX_LOCK, 0x2000),
                (Call.MUTEX_UNLOCK, 0x2000), (Call.COND_WAIT, 0x3000, 0x2000), (Call.CLEANUP_PUSH, HANDLER_BACK, 1),
                (Call.CLEANUP_PUSH, RETURN_GATE, 1), (Call.SELF,)]

    def gates_options(self, thread_id):
        """Handlers and threads that go to the gates by themselves."""
        chance = self.chance
        routine = chance.choice([RETURN_GATE, RETURN_GATE, UNWIND_GATE, HANDLER_1, FIVE_MORE])
        return [*[(Call.CLEANUP_PUSH, routine, chance.choice([1, 2]))] * 6, (Call.THREAD_EXIT, 5),
                (Call.CLEANUP_POP, chance.choice([0, 1])), (Call.CANCEL, self.thread_id()), (Call.TESTCANCEL,),
                RETURN_TO_X1, (Call.JOIN, self.thread_id()), (Call.DETACH, self.thread_id()),
                (Call.CREATE, TOP, 3, 0, chance.choice([0, 1])), (Call.SETCANCELSTATE, chance.choice([0, 1])),
                (Call.SETCANCELTYPE, chance.choice([0, 1]))]

    def key(self):
        """Mostly one that is there."""
        there = list(self.machine.keys)
        return self.chance.choice(there) if there and self.chance.random() < 0.85 else self.chance.choice([0, 1, 31, 32, ALL_ONES])

    def destructor(self):
        """Some take records, and so may set values again; one returns at once."""
        places = [HANDLER_1, HANDLER_2, HANDLER_1, HANDLER_BACK, TOP, TOP, 0, 0x1002]
        return self.chance.choice([UNWIND_GATE, RETURN_GATE]) if self.chance.random() < 0.04 else self.chance.choice(places)

    def keys_options(self, thread_id):
        """Who unwinds mostly sets a value again or goes on, so that all rounds come up."""
        chance = self.chance
        if self.machine.threads[thread_id].is_unwinding and chance.random() < 0.8:
            return [(Call.SETSPECIFIC, self.key(), 3), RETURN_TO_X1]
        values = [0, 1, 2, 0x41, ALL_ONES]
        setting = [(Call.SETSPECIFIC, self.key(), chance.choice(values)) for _ in range(5)]
        return (setting + [(Call.GETSPECIFIC, self.key()) for _ in range(3)] +
                [(Call.KEY_CREATE, self.destructor())] * 3 + [(Call.KEY_DELETE, self.key())])

    def many_keys_options(self, thread_id):
        """The table fills; then a key goes at times."""
        is_full = len(self.machine.keys) == len(KEYS)
        return ([(Call.KEY_CREATE, self.destructor())] * 8 + [(Call.SETSPECIFIC, self.key(), 7)] * 2 +
                [(Call.KEY_DELETE, self.key()) if is_full else (Call.GETSPECIFIC, self.key())])

    def key_ends_options(self, thread_id):
        """Threads end, and others begin."""
        if self.machine.threads[thread_id].is_unwinding:
            return self.keys_options(thread_id)
        create = (Call.CREATE, TOP, 7, 0, self.chance.choice([0, 1]))
        return [(Call.THREAD_EXIT, 5), RETURN_TO_X1, (Call.CANCEL, self.thread_id()), (Call.TESTCANCEL,), create, create,
                (Call.CLEANUP_PUSH, HANDLER_BACK, 1), (Call.JOIN, self.thread_id())]

    def stream_options(self, thread_id):
        return [(Call.PUTC, self.chance.choice([65, 0x1FF])), *[(Call.GETC,)] * 3, (Call.CLOCK,),
                *[(Call.SLEEP_UNTIL, *self.moment())] * 3]

    def odd_options(self, thread_id):
        if self.chance.random() < 0.02:
            return [(Call.EXIT, 7)]
        return [(number, 1, 2, 3, 4) for number in unknown_calls()]
