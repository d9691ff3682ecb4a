"""Well-formed states with more threads and waits than a run would soon reach: what is saved must not have been reached."""
from copy import deepcopy

from model.abi import ALL_ONES, MOMENTS
from model.objects import Mutex, MutexKind, ReadWriteLock
from model.processor import Cause
from model.threads import KEYS, ROUNDS, THREAD_IDS, UNWIND, Handler, Wait, WaitKind
from model.well_formed import is_well_formed

MUTEXES = [0x2000, 0x2004, 0x2008, ALL_ONES]
CONDITIONS = {0x2000: 0x2004, 0x3000: 0x2000, 0x3004: 0x2000}  # and the mutex of each
BARRIERS = [0x2000, 0x4000]
LOCKS = [0x2000, 0x5000, 0x5004]


class Crowd:
    def __init__(self, chance, state, harts):
        self.chance, self.state, self.harts = chance, state, harts
        self.threads = state.threads

    def grow(self, count):
        """More threads, like those that there are, and waits for most that are ready."""
        if self.state.has_keys and self.chance.random() < 0.7:
            self.add_keys()
        free = [number for number in THREAD_IDS if number not in self.threads]
        live = [thread for thread in self.threads.values() if not thread.has_ended]
        for number in self.chance.sample(free, min(count, len(free))):
            self.threads[number] = self.like(self.chance.choice(live))
        for number in self.chance.sample(list(self.threads), len(self.threads)):
            if self.state.is_ready(number) and number not in self.state.harts and self.chance.random() < 0.8:
                self.add_wait(number)
        ready = [number for number in self.threads if self.state.is_ready(number)]
        for hart, number in zip(range(self.harts), self.chance.sample(ready, min(len(ready), self.chance.randrange(9)))):
            if number not in self.state.harts:
                self.state.harts[hart] = number

    def add_keys(self):
        """Some or all keys, and values of the threads that there are."""
        for key in self.chance.sample(KEYS, self.chance.choice([1, 2, 5, 32])):
            self.state.keys.setdefault(key, self.chance.choice([0, 0x1000, 0x1010, ALL_ONES - 3]))
        for thread in self.threads.values():
            if not thread.has_ended:
                self.add_values(thread)

    def add_values(self, thread):
        """Values of some keys; of one who unwinds a round too."""
        chance, keys = self.chance, list(self.state.keys)
        count = chance.choice([0, 0, 1, 2, len(keys)])
        for key in chance.sample(keys, min(count, len(keys))):
            thread.values[key] = chance.choice([1, 0x42, ALL_ONES])
        thread.round = thread.next_key = 0
        if thread.is_unwinding and chance.random() < 0.7:
            thread.round, thread.next_key = chance.randrange(1, ROUNDS + 1), chance.randrange(len(KEYS) + 1)

    def like(self, other):
        chance, thread = self.chance, deepcopy(other)
        thread.is_initial, thread.is_detached = False, chance.random() < 0.2
        thread.is_request_pending = chance.random() < 0.2
        thread.is_unwinding, thread.value = chance.random() < 0.2, 0
        thread.is_disabled = thread.is_unwinding or chance.random() < 0.2
        thread.is_asynchronous = not thread.is_unwinding and chance.random() < 0.2
        if thread.is_unwinding:
            thread.value = chance.choice([5, ALL_ONES])
        if chance.random() < 0.3:
            thread.handlers = [Handler(thread.pc, number) for number in range(chance.choice([1, 2, 16]))]
        if self.state.has_keys:
            self.add_values(thread)
        return thread

    def add_wait(self, number):
        kind = self.chance.choice(list(WaitKind))
        wait = getattr(self, f"{kind.value}_wait")(number)
        if wait is not None:
            self.state.waits.append(wait)

    def deadline(self, share):
        moment = self.state.clock + self.chance.choice([1, 1, 2, 5, 1 << 32])
        return moment if self.chance.random() < share and moment < MOMENTS else None

    def join_wait(self, number):
        joinable = [other for other, thread in self.threads.items() if other != number and not thread.has_ended
                    and not thread.is_detached and self.state.joiner_of(other) is None]
        return Wait(number, WaitKind.JOIN, self.chance.choice(joinable)) if joinable else None

    def owned_mutex(self, address, number):
        """The mutex, which gets an owner where it has none."""
        mutex = self.state.mutexes.setdefault(address, Mutex())
        if mutex.owner == 0:
            mutex.kind = MutexKind(self.chance.choice([0, 0, 1, 2]))
            mutex.owner = self.chance.choice([other for other in [*self.threads, 64] if other != number])
            mutex.count = self.chance.choice([1, 2, 65535]) if mutex.kind == MutexKind.RECURSIVE else 1
        return mutex

    def lock_wait(self, number):
        address = self.chance.choice(MUTEXES)
        mutex = self.owned_mutex(address, number)
        if mutex.owner == number and mutex.kind != MutexKind.NORMAL:
            return None
        return Wait(number, WaitKind.LOCK, address, deadline=self.deadline(0.4))

    def retake_wait(self, number):
        address = self.chance.choice(MUTEXES)
        if self.owned_mutex(address, number).owner == number:
            return None
        results = [0, 110, UNWIND] if self.threads[number].is_unwinding else [0, 110]
        return Wait(number, WaitKind.RETAKE, address, result=self.chance.choice(results))

    def condition_wait(self, number):
        address = self.chance.choice(list(CONDITIONS))
        there = self.state.queue_of(address, WaitKind.CONDITION)
        mutex = self.state.mutexes.get(there[0].mutex if there else CONDITIONS[address], Mutex())
        if mutex.owner == number and (mutex.kind != MutexKind.RECURSIVE or mutex.count == 65535):
            return None
        named = there[0].mutex if there else CONDITIONS[address]
        return Wait(number, WaitKind.CONDITION, address, named, deadline=self.deadline(0.4))

    def barrier_wait(self, number):
        address = self.chance.choice(BARRIERS)
        missing = len(self.state.queue_of(address, WaitKind.BARRIER)) + 2
        self.state.barriers[address] = max(self.state.barriers.get(address, 0), missing)
        return Wait(number, WaitKind.BARRIER, address)

    def held_lock(self, address, number, needs_writer):
        """The lock, which gets a holder that isn't waiting for it where it has none; None where that isn't the holder wanted."""
        lock = self.state.locks.setdefault(address, ReadWriteLock())
        waiters = {wait.thread for wait in self.state.queue_of(address, WaitKind.READ, WaitKind.WRITE)} | {number}
        others = [other for other in [*self.threads, 63] if other not in waiters]
        if not lock.writer and not lock.readers and others:
            if needs_writer or self.chance.random() < 0.5:
                lock.writer = self.chance.choice(others)
            else:
                lock.readers = {other: self.chance.choice([1, 3, 65535]) for other in self.chance.sample(others, min(3, len(others)))}
        return lock if lock.writer or (lock.readers and not needs_writer) else None

    def read_wait(self, number):
        address = self.chance.choice(LOCKS)
        is_first = not self.state.queue_of(address, WaitKind.READ, WaitKind.WRITE)
        return self.lock_queue_wait(number, WaitKind.READ, address, self.held_lock(address, number, is_first))

    def write_wait(self, number):
        address = self.chance.choice(LOCKS)
        return self.lock_queue_wait(number, WaitKind.WRITE, address, self.held_lock(address, number, False))

    def lock_queue_wait(self, number, kind, address, lock):
        holds = lock is None or lock.writer == number or number in lock.readers
        return None if holds else Wait(number, kind, address)

    def input_wait(self, number):
        return None if self.state.input or self.state.is_input_closed else Wait(number, WaitKind.INPUT)

    def sleep_wait(self, number):
        return Wait(number, WaitKind.SLEEP, deadline=self.deadline(1)) if self.state.clock + (1 << 32) < MOMENTS else None


def crowded(chance, state, held, harts):
    """The state with a crowd in it, where that is well-formed; and at times an end of the program."""
    grown = deepcopy(state)
    if not grown.threads or all(thread.has_ended for thread in grown.threads.values()):
        return state
    Crowd(chance, grown, harts).grow(chance.choice([2, 5, 12, 63]))
    if chance.random() < 0.05:
        grown.clock, grown.waits = MOMENTS - chance.choice([1, 2, 5]), [wait for wait in grown.waits if wait.deadline is None]
    if chance.random() < 0.07:
        grown.end_process(chance.choice([0, 7, ALL_ONES]))
    elif chance.random() < 0.07:
        live = [number for number, thread in grown.threads.items() if not thread.has_ended]
        grown.fault(chance.choice(live), chance.choice(list(Cause)))
    return grown if is_well_formed(grown, held, harts) else state
