"""Random changes of a saved state, most of which leave no well-formed one: what a reader of tables has to notice.

Each change takes the source of chance and a `Saved`, and alters it in place; a change that finds nothing to alter leaves
it as it is.
"""
from dataclasses import dataclass

from model.abi import ALL_ONES, MOMENTS
from model.objects import Mutex, ReadWriteLock
from model.processor import Cause
from model.switches import SWITCHES
from model.threads import UNWIND, Handler, State, Status, Thread, Wait, WaitKind

HELD = (WaitKind.LOCK, WaitKind.RETAKE, WaitKind.CONDITION, WaitKind.READ, WaitKind.WRITE)
ODD_IDS = [0, 1, 2, 3, 63, 64, 65, 255]


@dataclass
class Saved:
    state: State
    held: bytearray

    def ids(self):
        return list(self.state.threads)

    def addresses(self):
        """Of all objects, and one that is none."""
        state = self.state
        named = [address for wait in state.waits if wait.kind is not WaitKind.JOIN for address in (wait.subject, wait.mutex)]
        return [*state.mutexes, *state.barriers, *state.locks, *named, 0x2000, 0xFFFFFFFC]


def some(chance, choices):
    """One of them, or None."""
    choices = list(choices)
    return chance.choice(choices) if choices else None


def change_thread(chance, saved):
    number = some(chance, saved.ids())
    thread = saved.state.threads.get(number)
    if thread is None:
        return
    match chance.randrange(10):
        case 0:
            saved.state.threads[chance.choice(ODD_IDS)] = saved.state.threads.pop(number)
        case 1:
            thread.pc = chance.choice([thread.pc ^ 1, thread.pc ^ 2, thread.pc ^ 4, 0, ALL_ONES, ALL_ONES - 3])
        case 2:
            place = chance.choice([0x1000, 0x1002, ALL_ONES, 0xFFFFFFF0])
            thread.handlers += [Handler(place, 5)] * chance.choice([1, 1, 16 - len(thread.handlers), 17 - len(thread.handlers)])
        case 3:
            thread.is_unwinding, thread.value = not thread.is_unwinding, 0
        case 4:
            thread.is_unwinding = thread.is_disabled = True
        case 5:
            del saved.state.threads[number]
        case 6:
            saved.state.threads[number] = Thread(has_ended=True, value=chance.choice([0, 7, ALL_ONES]))
        case _:
            flag = chance.choice(["is_initial", "is_detached", "is_disabled", "is_asynchronous", "is_request_pending"])
            setattr(thread, flag, not getattr(thread, flag))


def end_all(chance, saved):
    """Threads that wait and run are left behind only at times."""
    state = saved.state
    state.threads = {number: Thread(has_ended=True) for number in state.threads}
    if chance.random() < 0.7:
        state.waits, state.harts = [], [0] * len(state.harts)


def change_wait(chance, saved):
    waits = saved.state.waits
    wait = some(chance, waits)
    if wait is None:
        return
    match chance.randrange(9):
        case 0:
            wait.thread = chance.choice(saved.ids() + [0, 65])
        case 1:
            now = saved.state.clock
            wait.deadline = chance.choice([None, 0, now, now + 1, MOMENTS - 1, MOMENTS])
        case 2:
            wait.subject = chance.choice(saved.ids() if wait.kind is WaitKind.JOIN else saved.addresses())
        case 3:
            wait.mutex = chance.choice(saved.addresses())
        case 4:
            wait.kind = chance.choice(list(WaitKind))
        case 5:
            wait.result = chance.choice([0, 110, UNWIND, 1, 254])
        case 6:
            waits.remove(wait)
        case 7:
            waits.append(waits.pop(waits.index(wait)))
        case 8:
            waits.append(wait)


def add_wait(chance, saved):
    """A wait for a thread that had none, of any kind."""
    state = saved.state
    number = some(chance, [number for number in state.threads if state.is_ready(number)])
    if number is None:
        return
    state.harts = [0 if there == number and chance.random() < 0.9 else there for there in state.harts]
    kind = chance.choice(list(WaitKind))
    address = chance.choice(saved.addresses())
    wait = Wait(number, kind, chance.choice(saved.ids()) if kind is WaitKind.JOIN else address)
    if kind is WaitKind.CONDITION:
        wait.mutex = chance.choice(saved.addresses())
    if kind is WaitKind.SLEEP or chance.random() < 0.1:
        wait.deadline = chance.choice([state.clock, state.clock + 1, MOMENTS - 1])
    state.waits.insert(chance.choice([0, len(state.waits)]), wait)


def make_waiter_hold(chance, saved):
    """A waiter comes to hold what it waits for, in a way that its wait may forbid."""
    state = saved.state
    wait = some(chance, [wait for wait in state.waits if wait.kind in HELD])
    if wait is None:
        return
    if wait.kind in (WaitKind.READ, WaitKind.WRITE):
        lock = state.locks.setdefault(wait.subject, ReadWriteLock())
        if chance.random() < 0.5:
            lock.readers[wait.thread] = 1
        else:
            lock.writer = wait.thread
        return
    address = wait.mutex if wait.kind is WaitKind.CONDITION else wait.subject
    kind = chance.choice([0, 1, 1, 2])
    state.mutexes[address] = Mutex(kind, wait.thread, chance.choice([1, 65534, 65535]) if kind == 1 else 1)


def part_condition(chance, saved):
    """One of a condition's waiters names another mutex."""
    wait = some(chance, [wait for wait in saved.state.waits if wait.kind is WaitKind.CONDITION])
    if wait is not None:
        wait.mutex = chance.choice(saved.addresses())


def change_harts(chance, saved):
    saved.state.harts[chance.randrange(8)] = chance.choice(saved.ids() + [0, 0, 65])


def change_mutex(chance, saved):
    state = saved.state
    if chance.random() < 0.1:
        for number in range(chance.choice([255, 256, 257])):
            state.mutexes[0x40000 + 4 * number] = Mutex(2, 0, 0)
        return
    mutex = state.mutexes.setdefault(chance.choice(saved.addresses()), Mutex())
    match chance.randrange(5):
        case 0:
            mutex.owner = chance.choice(ODD_IDS)
        case 1:
            mutex.count = chance.choice([0, 1, 2, 65534, 65535])
        case 2:
            mutex.kind = chance.choice([0, 1, 2, 3])
        case 3:
            mutex.owner = mutex.count = 0
        case 4:
            mutex.owner, mutex.count = chance.choice(saved.ids() + [64]), 1


def change_lock(chance, saved):
    state = saved.state
    if chance.random() < 0.05:
        for number in range(chance.choice([63, 64, 65])):
            state.locks[0x40000 + 4 * number] = ReadWriteLock(0, {64: 1})
        return
    lock = state.locks.setdefault(chance.choice(saved.addresses()), ReadWriteLock())
    match chance.randrange(4):
        case 0:
            lock.writer = chance.choice(ODD_IDS)
        case 1:
            lock.readers[chance.choice(ODD_IDS)] = chance.choice([0, 1, 65535])
        case 2:
            lock.writer, lock.readers = 0, {}
        case 3:
            lock.writer, lock.readers = 0, {chance.choice(saved.ids() + [64]): 1}


def change_barrier(chance, saved):
    barriers = saved.state.barriers
    if chance.random() < 0.05:
        barriers |= {0x40000 + 4 * number: 1 for number in range(chance.choice([63, 64, 65]))}
        return
    address = chance.choice(saved.addresses())
    if address in barriers and chance.random() < 0.2:
        del barriers[address]
    else:
        waiting = len(saved.state.queue_of(address, WaitKind.BARRIER))
        barriers[address] = chance.choice([0, 1, waiting, waiting + 1, ALL_ONES])


def change_queues(chance, saved):
    state = saved.state
    match chance.randrange(3):
        case 0:
            state.is_input_closed = not state.is_input_closed
        case 1:
            length = chance.choice([0, 1, 4096, 4097])
            state.input = list(chance.randbytes(length))
        case 2:
            saved.held[:] = chance.randbytes(chance.choice([0, 1, 16384, 16385]))


def change_clock(chance, saved):
    moments = [wait.deadline for wait in saved.state.waits if wait.deadline]
    moment = some(chance, moments + [MOMENTS - 1, MOMENTS - 2, MOMENTS, 5])
    saved.state.clock = max(0, moment - chance.choice([0, 1]))


def change_status(chance, saved):
    state = saved.state
    state.status = chance.choice(list(Status))
    state.status_word = chance.choice([0, 1, 2, 0x1000, ALL_ONES, ALL_ONES - 3])
    state.fault_thread = chance.choice(saved.ids() + ODD_IDS)
    state.fault_cause = chance.choice([0, 1, 9, 10, *map(int, Cause)])


def change_keys(chance, saved):
    """Keys, the mark, and a thread's values and round."""
    state, odd_keys = saved.state, [0, 1, 31, 32, ALL_ONES]
    thread = state.threads.get(some(chance, saved.ids()), Thread())
    match chance.randrange(8):
        case 0:
            state.has_keys = not state.has_keys
        case 1 | 2:
            state.keys[chance.choice(odd_keys)] = chance.choice([0, 0x1000, 0x1001, 0x1002, ALL_ONES])
        case 3 if state.keys:
            del state.keys[chance.choice(list(state.keys))]
        case 4 | 5:
            thread.values[chance.choice([*state.keys, *odd_keys])] = chance.choice([0, 1, ALL_ONES])
        case 6:
            thread.round = chance.choice([0, 1, 4, 5])
        case _:
            thread.next_key = chance.choice([0, 1, 32, 33])


CHANGES = {change_thread: 5, end_all: 1, change_wait: 6, add_wait: 5, change_harts: 2, change_mutex: 4, change_lock: 4,
           change_barrier: 2, change_queues: 2, change_clock: 2, change_status: 3, make_waiter_hold: 5, part_condition: 2}


def change(chance, saved):
    changes = CHANGES | {change_keys: 6} if SWITCHES.keys else CHANGES
    chance.choices(list(changes), changes.values())[0](chance, saved)


def damaged_bytes(chance, tables):
    """Bytes changed, added or dropped, without a look at what they mean."""
    tables = bytearray(tables)
    at = chance.randrange(len(tables))
    match chance.randrange(5):
        case 0:
            del tables[at:at + chance.choice([1, 2, 4])]
        case 1:
            tables += bytes([chance.choice([0, 1, 255])])
        case 2:
            tables[at:at] = tables[at:at + chance.choice([1, 8, 20, 136])]
        case _:
            tables[at] = chance.choice([tables[at] ^ 1 << chance.randrange(8), 0, 1, 255])
    return bytes(tables)
