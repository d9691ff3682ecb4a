"""Threads, waits, and how a thread ends: the state that the calls work on."""
from collections import Counter
from dataclasses import dataclass, field
from enum import Enum
from typing import NamedTuple

from model.abi import ALL_ONES, PAGE, RETURN_GATE, UNWIND_GATE
from model.switches import SWITCHES

THREAD_IDS = range(1, 65)
HARTS = 8
KEYS = range(32)
ROUNDS = 4  # in which an ending thread looks for destructors
# In place of a result: the thread that gets its mutex goes on to its next handler.
UNWIND = -1


class Status(Enum):
    RUNNING = "running"
    EXITED = "exited"
    FAULTED = "faulted"


class WaitKind(Enum):
    JOIN = "join"
    LOCK = "lock"
    RETAKE = "retake"
    CONDITION = "condition"
    BARRIER = "barrier"
    READ = "read"
    WRITE = "write"
    INPUT = "input"
    SLEEP = "sleep"


class Handler(NamedTuple):
    routine: int
    argument: int


@dataclass
class Thread:
    """`values` has by key those that aren't 0; `round` and `next_key` tell how far destructors have come. `sendings` counts how often
    the runtime has sent it to a routine of its own, for who looks on."""
    pc: int = 0
    registers: list = field(default_factory=lambda: [0] * 32)
    is_initial: bool = False
    is_detached: bool = False
    is_disabled: bool = False
    is_asynchronous: bool = False
    is_request_pending: bool = False
    is_unwinding: bool = False
    has_ended: bool = False
    value: int = 0
    handlers: list = field(default_factory=list)
    values: dict = field(default_factory=dict)
    round: int = 0
    next_key: int = 0
    sendings: int = field(default=0, compare=False)

    def set_value(self, key, value):
        """A value of 0 is none."""
        if value:
            self.values[key] = value
        else:
            self.values.pop(key, None)

    def run_back_to_gate(self, routine, argument):
        """A handler or destructor, from which the thread comes back to its unwinding."""
        self.pc = routine
        self.registers[1], self.registers[10] = UNWIND_GATE, argument
        self.sendings += 1


def new_thread(start, argument, stack, is_detached, is_initial=False):
    """A thread that returns to the gate when its routine does."""
    thread = Thread(pc=start, is_detached=is_detached, is_initial=is_initial)
    thread.registers[1], thread.registers[2], thread.registers[10] = RETURN_GATE, stack, argument
    return thread


@dataclass
class Wait:
    """One blocked thread. A condition's wait names its mutex too; a retake its result."""
    thread: int
    kind: WaitKind
    subject: int = 0
    mutex: int = 0
    result: int = 0
    deadline: int | None = None


class State:
    """All that calls and time change, but not the memory. Waits stand in the order in which they began.

    The status word is the exit status, or the pc of the fault. `keys` has by key its destructor, 0 for none.
    """

    def __init__(self, tally=None):
        self.threads = {}
        self.harts = [0] * HARTS
        self.waits = []
        self.mutexes = {}
        self.barriers = {}
        self.locks = {}
        self.keys = {}
        self.has_keys = SWITCHES.keys
        self.clock = 0
        self.input = []
        self.is_input_closed = False
        self.status = Status.RUNNING
        self.status_word = self.fault_thread = self.fault_cause = 0
        self.begin_step()
        self.tally = Counter() if tally is None else tally

    def begin_step(self):
        """What a step puts, and the waits that a step or an event ends."""
        self.byte_put, self.ended_waits = None, []

    def add_initial_thread(self, pages):
        self.threads[1] = new_thread(0x1000, 0, PAGE * pages, False, is_initial=True)

    def end_process(self, status):
        self.status, self.status_word = Status.EXITED, status

    def fault(self, thread_id, cause):
        """The faulting instruction has changed nothing: the thread's pc is its place."""
        self.status, self.status_word = Status.FAULTED, self.threads[thread_id].pc
        self.fault_thread, self.fault_cause = thread_id, int(cause)

    def wait_of(self, thread_id):
        return next((wait for wait in self.waits if wait.thread == thread_id), None)

    def queue_of(self, subject, *kinds):
        return [wait for wait in self.waits if wait.kind in kinds and wait.subject == subject]

    def joiner_of(self, thread_id):
        return next(iter(self.queue_of(thread_id, WaitKind.JOIN)), None)

    def is_ready(self, thread_id):
        thread = self.threads.get(thread_id)
        return thread is not None and not thread.has_ended and self.wait_of(thread_id) is None

    def set_result(self, thread_id, result):
        self.threads[thread_id].registers[10] = result

    def leave_hart(self, thread_id):
        self.harts = [0 if there == thread_id else there for there in self.harts]

    def block(self, thread_id, kind, subject=0, **rest):
        self.leave_hart(thread_id)
        self.waits.append(Wait(thread_id, kind, subject, **rest))

    def end_wait(self, wait, why):
        """Takes a wait away; the caller says what the thread gets."""
        self.waits.remove(wait)
        self.ended_waits.append(wait)
        self.tally["wait: " + wait.kind.value, why] += 1

    def end_thread(self, thread_id):
        """A joiner gets the value and frees the id; else a detached thread's id is free; else the value is kept.

        No lock is released: the owner of a mutex is an id.
        """
        thread = self.threads[thread_id]
        self.leave_hart(thread_id)
        joiner = self.joiner_of(thread_id)
        if joiner is not None:
            self.end_wait(joiner, "granted")
            self.set_result(joiner.thread, 0)
            self.threads[joiner.thread].registers[11] = thread.value
        if joiner is not None or thread.is_detached:
            del self.threads[thread_id]
        else:
            self.threads[thread_id] = Thread(has_ended=True, value=thread.value)
        if all(other.has_ended for other in self.threads.values()):
            self.end_process(0)

    def next_handler(self, thread_id):
        """The newest handler is removed and runs; without one the thread goes to its next destructor."""
        thread = self.threads[thread_id]
        if not thread.handlers:
            self.next_destructor(thread_id)
            return
        handler = thread.handlers.pop()
        thread.run_back_to_gate(handler.routine, handler.argument)

    def key_to_destroy(self, thread, first):
        """The first key from there on that has a destructor, and a value of the thread; or None."""
        return next((key for key in KEYS if key >= first and self.keys.get(key) and key in thread.values), None)

    def next_destructor(self, thread_id):
        """The destructor of the next key takes its value; where there is none the next round begins; at last the thread ends."""
        thread = self.threads[thread_id]
        if thread.round == 0:
            thread.round, thread.next_key = 1, 0
        key = self.key_to_destroy(thread, thread.next_key)
        if key is None and thread.round < ROUNDS:
            thread.round += 1
            key = self.key_to_destroy(thread, 0)
        if key is None:
            self.end_thread(thread_id)
            return
        thread.next_key = key + 1
        self.tally["destructors", f"run in round {thread.round}"] += 1
        thread.run_back_to_gate(self.keys[key], thread.values.pop(key))

    def mark_unwinding(self, thread_id, value):
        """From now on the thread is disabled and deferred; a later value replaces this one."""
        thread = self.threads[thread_id]
        thread.is_unwinding, thread.value = True, value
        thread.is_disabled, thread.is_asynchronous = True, False

    def begin_unwinding(self, thread_id, value):
        self.mark_unwinding(thread_id, value)
        self.next_handler(thread_id)

    def act_on_request(self, thread_id):
        self.threads[thread_id].is_request_pending = False
        self.begin_unwinding(thread_id, ALL_ONES)

    def acts_at_point(self, thread_id):
        """At a cancellation point an enabled thread with a request acts on it instead of making the call."""
        thread = self.threads[thread_id]
        if thread.is_disabled or not thread.is_request_pending:
            return False
        self.act_on_request(thread_id)
        return True
