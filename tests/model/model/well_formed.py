"""Which states are well-formed: what every run keeps, and what saved tables must say. One function a rule."""
from model.abi import MOMENTS, Error
from model.calls import HANDLERS
from model.machine import INPUT_QUEUE, OUTPUT_HELD
from model.objects import BARRIERS, COUNT_LIMIT, LOCKS, MUTEXES, MutexKind, locks_in_use, mutexes_in_use
from model.processor import Cause
from model.switches import SWITCHES
from model.threads import KEYS, ROUNDS, THREAD_IDS, UNWIND, Status, WaitKind

TIMED = (WaitKind.LOCK, WaitKind.CONDITION, WaitKind.SLEEP)
FOR_MUTEX = (WaitKind.LOCK, WaitKind.RETAKE)
FOR_LOCK = (WaitKind.READ, WaitKind.WRITE)
RETAKE_RESULTS = (0, Error.ETIMEDOUT, UNWIND)


def live(state, number):
    """The thread, where it is in the table and hasn't ended."""
    thread = state.threads.get(number)
    return None if thread is None or thread.has_ended else thread


def waits_of(state, *kinds):
    return [wait for wait in state.waits if wait.kind in kinds]


def threads_are_possible(state, held, harts):
    """Ids, places, handlers; who unwinds is disabled and deferred; at most one initial thread."""
    for number, thread in state.threads.items():
        places = [thread.pc] + [handler.routine for handler in thread.handlers]
        unwinds_rightly = not thread.is_unwinding or (thread.is_disabled and not thread.is_asynchronous)
        is_possible = number in THREAD_IDS and len(thread.handlers) <= HANDLERS and unwinds_rightly
        if not is_possible or any(place % 4 for place in places):
            return False
    return sum(thread.is_initial for thread in state.threads.values()) <= 1


def waiters_and_runners_are_live(state, held, harts):
    """A thread waits once or is on one hart, never both; harts that there aren't are idle."""
    waiting = [wait.thread for wait in state.waits]
    running = [thread for thread in state.harts if thread != 0]
    busy = waiting + running
    return len(set(busy)) == len(busy) and all(live(state, number) for number in busy) and not any(state.harts[harts:])


def somebody_is_left(state, held, harts):
    return state.status is not Status.RUNNING or any(not thread.has_ended for thread in state.threads.values())


def deadlines_are_ahead(state, held, harts):
    """Only timed waits have a deadline, a sleep always; while the program runs each lies ahead of the clock."""
    if state.clock >= MOMENTS:
        return False
    for wait in state.waits:
        if wait.deadline is None:
            if wait.kind is WaitKind.SLEEP:
                return False
        elif wait.kind not in TIMED or wait.deadline >= MOMENTS:
            return False
        elif state.status is Status.RUNNING and wait.deadline <= state.clock:
            return False
    return True


def joins_are_possible(state, held, harts):
    joins = waits_of(state, WaitKind.JOIN)
    targets = [live(state, wait.subject) for wait in joins]
    are_joinable = all(target is not None and not target.is_detached for target in targets)
    return are_joinable and all(wait.subject != wait.thread for wait in joins) and (
        len({wait.subject for wait in joins}) == len(joins))


def is_possible_mutex(mutex):
    if mutex.kind not in list(MutexKind) or not (mutex.owner == 0 or mutex.owner in THREAD_IDS):
        return False
    if mutex.owner == 0:
        return mutex.count == 0
    return 1 <= mutex.count <= (COUNT_LIMIT if mutex.kind == MutexKind.RECURSIVE else 1)


def is_possible_lock(lock):
    has_possible_writer = lock.writer == 0 or lock.writer in THREAD_IDS
    return has_possible_writer and all(
        number in THREAD_IDS and 1 <= count <= COUNT_LIMIT for number, count in lock.readers.items())


def objects_are_possible(state, held, harts):
    """Each mutex and read-write lock is possible by itself, and not too many are in use."""
    return (all(map(is_possible_mutex, state.mutexes.values())) and all(map(is_possible_lock, state.locks.values()))
            and len(mutexes_in_use(state)) <= MUTEXES and len(locks_in_use(state)) <= LOCKS)


def owner_of(state, address):
    mutex = state.mutexes.get(address)
    return 0 if mutex is None else mutex.owner


def owners_wait_rightly(state, held, harts):
    """Who waits for a mutex of its own: a lock of a normal one, or a condition's waiter with levels left."""
    for wait in waits_of(state, WaitKind.LOCK):
        if owner_of(state, wait.subject) == wait.thread and state.mutexes[wait.subject].kind != MutexKind.NORMAL:
            return False
    for wait in waits_of(state, WaitKind.CONDITION):
        if owner_of(state, wait.mutex) == wait.thread:
            mutex = state.mutexes[wait.mutex]
            if mutex.kind != MutexKind.RECURSIVE or mutex.count >= COUNT_LIMIT:
                return False
    for wait in waits_of(state, WaitKind.RETAKE):
        if owner_of(state, wait.subject) == wait.thread or wait.result not in RETAKE_RESULTS:
            return False
        waiter = live(state, wait.thread)
        if wait.result == UNWIND and not (waiter and waiter.is_unwinding):
            return False
    return True


def conditions_have_one_mutex(state, held, harts):
    mutexes = {}
    return all(mutexes.setdefault(wait.subject, wait.mutex) == wait.mutex
               for wait in waits_of(state, WaitKind.CONDITION))


def barriers_are_open(state, held, harts):
    """Fewer wait at a barrier than it counts, and none at one that there isn't."""
    waits = waits_of(state, WaitKind.BARRIER)
    return len(state.barriers) <= BARRIERS and all(wait.subject in state.barriers for wait in waits) and all(
        len(state.queue_of(address, WaitKind.BARRIER)) < count for address, count in state.barriers.items())


def locks_have_no_reader_beside_a_writer(state, held, harts):
    """Nor a waiter that holds it."""
    for lock in state.locks.values():
        if lock.writer and lock.readers:
            return False
    for wait in waits_of(state, *FOR_LOCK):
        lock = state.locks.get(wait.subject)
        if lock is not None and (lock.writer == wait.thread or wait.thread in lock.readers):
            return False
    return True


def nobody_waits_at_a_free_lock(state, held, harts):
    """The first waiter of a mutex faces an owner, a first reader a writer, a first writer a holder."""
    if not all(owner_of(state, wait.subject) for wait in waits_of(state, *FOR_MUTEX)):
        return False
    first = {}
    for wait in waits_of(state, *FOR_LOCK):
        first.setdefault(wait.subject, wait)
    for wait in first.values():
        lock = state.locks.get(wait.subject)
        if lock is None or not (lock.writer or (lock.readers and wait.kind is WaitKind.WRITE)):
            return False
    return True


def queues_are_possible(state, held, harts):
    """Nobody waits for input that is there or won't come; both queues have room for what they hold."""
    if waits_of(state, WaitKind.INPUT) and (state.input or state.is_input_closed):
        return False
    return len(state.input) <= INPUT_QUEUE and len(held) <= OUTPUT_HELD


def fault_is_possible(state, held, harts):
    """A live thread faulted, at a multiple of 4, for a cause that there is."""
    if state.status is not Status.FAULTED:
        return True
    return live(state, state.fault_thread) is not None and state.fault_cause in list(Cause) and state.status_word % 4 == 0


def keys_are_possible(state, held, harts):
    """Destructors are multiples of 4, and there are values of keys that there are; without the mark there is no key."""
    if not all(key in KEYS and destructor % 4 == 0 for key, destructor in state.keys.items()):
        return False
    values = [row for thread in state.threads.values() for row in thread.values.items()]
    return (state.has_keys or not state.keys) and all(key in state.keys and value != 0 for key, value in values)


def rounds_are_possible(state, held, harts):
    """Only who unwinds is in a round; before the first one no key is next. An ended thread has neither values nor round."""
    for thread in state.threads.values():
        is_in_range = thread.round <= ROUNDS and thread.next_key <= len(KEYS)
        if not is_in_range or (thread.next_key and not thread.round) or (thread.round and not thread.is_unwinding):
            return False
        if thread.has_ended and (thread.values or thread.round):
            return False
    return True


RULES = [threads_are_possible, waiters_and_runners_are_live, somebody_is_left, deadlines_are_ahead, joins_are_possible,
         objects_are_possible, owners_wait_rightly, conditions_have_one_mutex, barriers_are_open,
         locks_have_no_reader_beside_a_writer, nobody_waits_at_a_free_lock, queues_are_possible, fault_is_possible]

RULES_OF_KEYS = [keys_are_possible, rounds_are_possible]


def rules():
    return RULES + RULES_OF_KEYS if SWITCHES.keys else RULES


def is_well_formed(state, held, harts):
    return all(rule(state, held, harts) for rule in rules())
