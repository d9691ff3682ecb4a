"""The inspector's listing of what a disk recovers to."""
from model.devices import MemoryDisk
from model.layout import note_of
from model.objects import MutexKind
from model.processor import Cause
from model.recovery import events_of_journal, read_area, recover
from model.schedules import schedule_of
from model.switches import SWITCHES
from model.tables import saved_locks, saved_mutexes
from model.texts import text_of
from model.threads import UNWIND, Status, WaitKind

CAUSES = {Cause.FETCH_RANGE: "FetchRange", Cause.ILLEGAL: "Illegal", Cause.JUMP_MISALIGNED: "JumpMisaligned",
          Cause.LOAD_MISALIGNED: "LoadMisaligned", Cause.LOAD_RANGE: "LoadRange", Cause.BREAKPOINT: "Breakpoint",
          Cause.STORE_MISALIGNED: "StoreMisaligned", Cause.STORE_RANGE: "StoreRange", Cause.GATE: "Gate"}
MUTEX_KINDS = {MutexKind.NORMAL: "normal", MutexKind.RECURSIVE: "recursive", MutexKind.ERRORCHECK: "errorcheck"}

CODE_WORDS = 4  # behind a thread's line


def address_text(address):
    return f"{address:08x}"


def text_of_fault(state):
    return f"fault {state.fault_thread} {address_text(state.status_word)} {CAUSES[Cause(state.fault_cause)]}"


def status_line(state):
    if state.status is Status.RUNNING:
        return "status running"
    return f"status exit {state.status_word}" if state.status is Status.EXITED else f"status {text_of_fault(state)}"


def thread_line(state, number):
    thread = state.threads[number]
    if thread.has_ended:
        return f"thread {number} ended {thread.value}"
    words = ["detached" if thread.is_detached else "joinable", "blocked" if state.wait_of(number) else "ready",
             "pc", address_text(thread.pc), "disabled" if thread.is_disabled else "enabled",
             "asynchronous" if thread.is_asynchronous else "deferred", "pending" if thread.is_request_pending else "none",
             f"handlers {len(thread.handlers)}"] + ([f"unwinding {thread.value}"] if thread.is_unwinding else [])
    return f"thread {number} {' '.join(words)}"


def reason_of_wait(wait):
    """What the thread waits for."""
    subject = address_text(wait.subject)
    match wait.kind:
        case WaitKind.JOIN:
            return f"join {wait.subject}"
        case WaitKind.LOCK:
            return f"mutex {subject}"
        case WaitKind.RETAKE:
            return f"retake {subject} {'unwind' if wait.result == UNWIND else int(wait.result)}"
        case WaitKind.CONDITION:
            return f"cond {subject} {address_text(wait.mutex)}"
        case WaitKind.INPUT | WaitKind.SLEEP:
            return wait.kind.value
        case _:
            return f"{wait.kind.value} {subject}"


def text_of_wait(wait):
    """Until when, too."""
    return reason_of_wait(wait) + (f" until {wait.deadline}" if wait.deadline is not None else "")


def wait_line(wait):
    return f"wait {wait.thread} {text_of_wait(wait)}"


def lock_line(address, lock):
    readers = [f"{number}:{count}" for number, count in sorted(lock.readers.items())]
    holders = f"writer {lock.writer}" if lock.writer else "readers " + " ".join(readers)
    return f"rwlock {address_text(address)} {holders}"


def lines_of_keys(state):
    """Whether there are keys at all is told only where it could be."""
    if SWITCHES.keys and not state.has_keys:
        return ["keys off"]
    values = [(number, *row) for number, thread in sorted(state.threads.items()) for row in sorted(thread.values.items())]
    return [f"key {key} {address_text(destructor)}" for key, destructor in sorted(state.keys.items())] + [
        f"value {number} {key} {value}" for number, key, value in values]


def lines_of_code(machine, number):
    """The words from a thread's pc on, as many as the memory has of them."""
    thread = machine.threads[number]
    places = [] if thread.has_ended else [thread.pc + 4 * index for index in range(CODE_WORDS)]
    words = [(place, machine.memory.load(place, 4)) for place in places if machine.memory.is_valid(place, 4)]
    return [f"  {address_text(place)} {word:08x} {text_of(word) or 'illegal'}" for place, word in words]


def lines_of_thread(machine, number, is_with_code):
    return [thread_line(machine, number)] + (lines_of_code(machine, number) if is_with_code else [])


def lines_of_state(events, state, harts, is_with_code=False):
    """With code only of a machine, which has a memory."""
    return [
        f"events {events}", f"clock {state.clock}", status_line(state),
        *[f"hart {hart} {state.harts[hart] or 'idle'}" for hart in range(harts)],
        *[line for number in sorted(state.threads) for line in lines_of_thread(state, number, is_with_code)],
        *[wait_line(wait) for wait in state.waits],
        *[f"mutex {address_text(at)} {MUTEX_KINDS[mutex.kind]} {mutex.owner} {mutex.count}" for at, mutex in saved_mutexes(state)],
        *[f"barrier {address_text(at)} {count}" for at, count in sorted(state.barriers.items())],
        *[lock_line(at, lock) for at, lock in saved_locks(state)],
        *lines_of_keys(state),
    ]


class OutOfRange(Exception):
    """The events that are asked for lie before the area's, or behind the journal's."""

    def __init__(self):
        super().__init__("Range")


def earlier_state(disk, whole, at):
    """What the disk recovers to with its first `at` events alone; what it recovers to whole is known."""
    found = read_area(disk, whole.geometry)
    if not found.events <= at <= whole.events:
        raise OutOfRange
    for event in events_of_journal(disk, found)[0][:at - found.events]:
        found.take(event)
    return found


def lines_of_note(contents):
    """What tells of the disk, and not of the state: which image it was formatted with, and by which schedule it was driven."""
    note, schedule = note_of(contents), schedule_of(contents)
    lines = [] if note is None else [f"program {note[0].hex()} {note[1]}"]
    return lines + ([] if schedule is None else [" ".join(["schedule", *map(str, schedule.numbers)])])


def listing(contents, at=None, is_with_code=False):
    """The text, of the state after `at` events or after all of them. Raises Unrecovered, or OutOfRange where the disk
    recovers and has no such state."""
    disk = MemoryDisk(contents)
    found = recover(disk)
    if at is not None:
        found = earlier_state(disk, found, at)
    lines = lines_of_state(found.events, found.machine, found.geometry.harts, is_with_code)
    return "".join(line + "\n" for line in [*lines, *lines_of_note(contents)])
