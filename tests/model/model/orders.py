"""Which steps order what: read off the state before a step or event, and behind it.

Some of it the page on races leaves open. The narrow reading has what it surely says, the wide one all that it may mean.
"""
from model.abi import ALL_ONES, Call
from model.calls import row_of
from model.processor import ECALL
from model.stretches import acts_at_once, next_word
from model.threads import WaitKind

PLACES = 4096  # locks of one kind count as one where their addresses differ by a multiple of it
VARIABLES = 4096  # no variable of a program is below it, so mutexes and read-write locks with names there are a kit's own
MUTEX_LOCKS = (Call.MUTEX_LOCK, Call.MUTEX_TRYLOCK, Call.MUTEX_TIMEDLOCK)
LOCKS = (Call.RWLOCK_RDLOCK, Call.RWLOCK_TRYRDLOCK, Call.RWLOCK_WRLOCK, Call.RWLOCK_TRYWRLOCK)


class Before:
    """The state before a step of a thread, or before an event of none. `acts` tells whether the step is to act on a request."""

    def __init__(self, machine, thread_id):
        self.caller = thread_id
        self.holders = holders_of_locks(machine)
        self.live = {number for number, thread in machine.threads.items() if not thread.has_ended}
        self.enabled = {number for number, thread in machine.threads.items() if not thread.is_disabled}
        self.call = self.words = None
        self.acts = thread_id is not None and acts_at_once(machine.threads[thread_id])
        if thread_id is not None and next_word(machine, thread_id) == ECALL:
            self.look_at_call(machine, machine.threads[thread_id])

    def look_at_call(self, machine, thread):
        """A call that is a cancellation point isn't made where a request is acted on."""
        row = row_of(machine, thread.registers[17])
        self.acts = row is not None and row.is_point and thread.is_request_pending and not thread.is_disabled
        if not self.acts:
            self.call, self.words = thread.registers[17], thread.registers[10:14]


def holders_of_locks(machine):
    """Who has which lock: as a mutex, to write, or to read; with its address."""
    owners = {("mutex", address, mutex.owner) for address, mutex in machine.mutexes.items() if mutex.owner}
    writers = {("write", address, lock.writer) for address, lock in machine.locks.items() if lock.writer}
    return owners | writers | {("read", address, number) for address, lock in machine.locks.items() for number in lock.readers}


class Orders:
    """Hands on what steps order. A kit's own locks order nothing: `untaken` counts how often one came to a thread from another one."""

    def __init__(self, clocks, is_wide):
        self.clocks, self.is_wide = clocks, is_wide
        self.left, self.untaken = {}, 0

    def place(self, kind, address):
        """Locks of one kind that count as one have one holder; those at other bytes of one word are other locks."""
        return kind, address % PLACES

    def hand_on(self, before, machine):
        """First what is given, then what is taken: a lock may go from hand to hand in one step."""
        answer = answer_of(before, machine)
        self.give_up_locks(before, machine, answer)
        self.make_requests(before, answer)
        if before.call == Call.CREATE and answer == 0:
            self.clocks.lead(before.caller, machine.threads[before.caller].registers[11])
        if before.call == Call.BARRIER_WAIT and answer == ALL_ONES:
            self.clocks.meet([before.caller, *ended(machine, WaitKind.BARRIER)])
        self.act_on_requests(before, machine)
        self.take_locks(before, machine)
        for joined, joiner in joins(before, machine, answer):
            self.clocks.lead(joined, joiner)

    def give_up_locks(self, before, machine, answer):
        """In the wide reading an unlock gives up a lock of which a level is left, too."""
        given = before.holders - holders_of_locks(machine)
        if self.is_wide and before.call in (Call.MUTEX_UNLOCK, Call.RWLOCK_UNLOCK) and answer == 0:
            given |= {lock for lock in before.holders if lock[1:] == (before.words[0], before.caller)}
        if self.is_wide and before.call in (Call.COND_WAIT, Call.COND_TIMEDWAIT):
            given |= {lock for lock in before.holders if lock == ("mutex", before.words[1], before.caller)}
        for kind, address, number in given:
            if address < VARIABLES:
                self.left[address] = number
            else:
                self.clocks.give(number, self.place(kind, address))

    def take_locks(self, before, machine):
        """Who writes takes what readers and writers gave up, who reads what writers did. In the wide reading who has a lock behind
        a call that would have it takes it, and who gets back a level."""
        held = holders_of_locks(machine)
        taken = held - before.holders
        if self.is_wide and before.call in (*MUTEX_LOCKS, *LOCKS):
            taken |= {lock for lock in held if lock[1:] == (before.words[0], before.caller)}
        if self.is_wide:
            taken |= {lock for lock in held for wait in machine.ended_waits if lock == ("mutex", wait.mutex, wait.thread)}
        for _, address, number in (lock for lock in taken if lock[1] < VARIABLES):
            self.untaken += self.left.get(address, number) != number
        for kind, address, number in (lock for lock in taken if lock[1] >= VARIABLES):
            for given in {"mutex": ["mutex"], "write": ["write", "read"], "read": ["write"]}[kind]:
                self.clocks.take(number, self.place(given, address))

    def make_requests(self, before, answer):
        if before.call == Call.CANCEL and answer == 0 and before.words[0] in before.live:
            self.clocks.give(before.caller, ("request", before.words[0]))

    def act_on_requests(self, before, machine):
        """Who acts on requests has seen what those did who made them."""
        for number in acting_threads(before, machine):
            self.clocks.take(number, ("request", number))


def answer_of(before, machine):
    """Of a call that was made; None where its thread waits, or isn't there any more."""
    thread = machine.threads.get(before.caller)
    is_there = thread is not None and not thread.has_ended and machine.wait_of(before.caller) is None
    return thread.registers[10] if before.call is not None and is_there else None


def ended(machine, kind):
    """The threads whose wait of this kind has ended."""
    return [wait.thread for wait in machine.ended_waits if wait.kind is kind]


def acting_threads(before, machine):
    """Those that act on a request: the one whose step it is, or one that waits and is cancelled."""
    if before.acts:
        return [before.caller]
    if before.call != Call.CANCEL:
        return []
    return [wait.thread for wait in machine.ended_waits if wait.thread == before.words[0] and wait.thread in before.enabled]


def joins(before, machine, answer):
    """Threads that have ended, each with the one that joins it; its number is free then."""
    pairs = [(wait.subject, wait.thread) for wait in machine.ended_waits
             if wait.kind is WaitKind.JOIN and wait.subject not in machine.threads]
    return pairs + ([(before.words[0], before.caller)] if before.call == Call.JOIN and answer == 0 else [])
