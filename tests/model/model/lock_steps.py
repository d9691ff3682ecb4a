"""What the steps of a run and its events do to locks, as the orders of locks have it."""
from model.abi import ALL_ONES, Call
from model.callers import callers_from
from model.lock_orders import Lock, LockOrders, Taking
from model.orders import LOCKS, MUTEX_LOCKS, VARIABLES, answer_of, holders_of_locks
from model.threads import WaitKind

WAITING_CALLS = Call.MUTEX_LOCK, Call.RWLOCK_RDLOCK, Call.RWLOCK_WRLOCK  # for as long as need be
MADE_ANEW = {Call.MUTEX_INIT: True, Call.MUTEX_DESTROY: True, Call.RWLOCK_INIT: False, Call.RWLOCK_DESTROY: False}  # whether it is a mutex


class Waits:
    """Before a step: the threads that wait, in the order in which they began to, and where each thread stands, for its callers."""

    def __init__(self, machine):
        self.threads = [wait.thread for wait in machine.waits]
        self.stands = {number: (thread.pc, tuple(thread.registers[:9])) for number, thread in machine.threads.items()}

    def rank(self, thread_id):
        return self.threads.index(thread_id) if thread_id in self.threads else len(self.threads)


class LockSteps:
    """Is told of each step that may take a lock or give one up. `rows` are those of names, by which callers are found."""

    def __init__(self, rows=()):
        self.known, self.rows = LockOrders(), rows

    def note(self, before, waits, machine, position):
        """First what is given up, then what is had: a lock may go from hand to hand in one step."""
        answer, held = answer_of(before, machine), holders_of_locks(machine)
        if before.call == Call.CREATE and answer == 0:
            self.known.begin_thread(machine.threads[before.caller].registers[11])
        if before.call in MADE_ANEW and answer == 0:
            self.known.forget((MADE_ANEW[before.call], before.words[0]))
        for how, address, number in before.holders - held:
            self.known.give_up(number, (how == "mutex", address))
        had = [lock for lock in (held - before.holders) | called_for(before, held, answer) if lock[1] >= VARIABLES]
        for how, address, number in sorted(had, key=lambda lock: waits.rank(lock[2])):
            callers = callers_from(machine.memory, *waits.stands[number], self.rows)
            taking = Taking(Lock(how, address), position, place_of(machine, number), callers)
            self.known.get(number, taking, is_order(before, machine, number))


def called_for(before, held, answer):
    """What the caller has asked for and has, also where it had it already; a mutex whatever it was answered."""
    kinds = ["mutex"] if before.call in MUTEX_LOCKS else ["read", "write"] if before.call in LOCKS and answer == 0 else []
    if answer is None:
        return set()
    return {(kind, before.words[0], before.caller) for kind in kinds} & held


def place_of(machine, thread_id):
    """The address of the call by which a thread has just got a lock, and that of the call before it; none of either where it has ended by then."""
    thread = machine.threads.get(thread_id)
    if thread is None or thread.has_ended:
        return 0, 0
    return thread.pc - 4 & ALL_ONES, thread.registers[1] - 4 & ALL_ONES


def is_order(before, machine, thread_id):
    """Whether what a thread got is had by what waits for it as long as need be: a call, or a wait at a condition."""
    waited = [wait for wait in machine.ended_waits if wait.thread == thread_id]
    if waited:
        return waited[0].kind is not WaitKind.LOCK or waited[0].deadline is None
    return before.call in WAITING_CALLS
