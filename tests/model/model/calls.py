"""Calls on the process, threads, time and cancellation, and the table of all calls.

A call answers a number for x10, or BLOCKED where its thread waits, or MOVED where the thread went elsewhere. Conditions
are tested in the order in which they stand.
"""
from dataclasses import dataclass
from enum import Enum
from typing import Callable

from model.abi import ALL_ONES, KEY_CALLS, MOMENTS, Call, Error
from model.objects import retake_mutex
from model.threads import THREAD_IDS, UNWIND, Handler, WaitKind, new_thread

HANDLERS = 16


class Outcome(Enum):
    BLOCKED = "blocks"
    MOVED = "moves"


BLOCKED, MOVED = Outcome.BLOCKED, Outcome.MOVED


@dataclass
class Row:
    """One call: its function takes the state, the caller's id, and so many of x10 to x13."""
    function: Callable
    arguments: int
    is_point: bool


CALLS = {}


def guest_call(number, arguments=0, is_point=False):
    """Enters a function into the table; at a cancellation point a request is acted on first."""
    def enter(function):
        CALLS[number] = Row(function, arguments, is_point)
        return function
    return enter


def row_of(state, number):
    """None where there is no such call; those on keys are there where the state has keys."""
    return CALLS.get(number) if state.has_keys or number not in KEY_CALLS else None


def perform(state, caller):
    """Makes the call that stands in the caller's registers."""
    thread = state.threads[caller]
    number = thread.registers[17]
    row = row_of(state, number)
    if row is None:
        answer = Error.ENOSYS
    elif row.is_point and state.acts_at_point(caller):
        answer = MOVED
    else:
        answer = row.function(state, caller, *thread.registers[10:10 + row.arguments])
    name = Call(number).name.lower() if row else "(unknown call)"
    state.tally[name, kind_of_answer(answer)] += 1
    if not isinstance(answer, Outcome):
        thread.registers[10] = int(answer)


def kind_of_answer(answer):
    if isinstance(answer, Outcome):
        return answer.value
    if isinstance(answer, Error):
        return answer.name
    return {0: "0", ALL_ONES: "all ones"}.get(answer, "a value")


def moment_of(low, high):
    return high << 32 | low


@guest_call(Call.EXIT, arguments=1)
def exit_process(state, caller, status):
    """No handler runs. No reply tells the status, but saved tables do."""
    state.end_process(status)
    return MOVED


@guest_call(Call.PUTC, arguments=1, is_point=True)
def putc(state, caller, character):
    state.byte_put = character & 255
    return 0


@guest_call(Call.GETC, is_point=True)
def getc(state, caller):
    if state.input:
        return state.input.pop(0)
    if state.is_input_closed:
        return ALL_ONES
    state.block(caller, WaitKind.INPUT)
    return BLOCKED


@guest_call(Call.CLOCK)
def clock(state, caller):
    state.threads[caller].registers[11] = state.clock >> 32
    return state.clock & ALL_ONES


@guest_call(Call.SLEEP_UNTIL, arguments=2, is_point=True)
def sleep_until(state, caller, low, high):
    moment = moment_of(low, high)
    if moment >= MOMENTS:
        return Error.EINVAL
    if moment <= state.clock:
        return 0
    state.block(caller, WaitKind.SLEEP, deadline=moment)
    return BLOCKED


@guest_call(Call.CREATE, arguments=4)
def create(state, caller, start, argument, stack, is_detached):
    """The new thread takes the least free id."""
    if start % 4 or is_detached not in (0, 1):
        return Error.EINVAL
    new_id = next((number for number in THREAD_IDS if number not in state.threads), None)
    if new_id is None:
        return Error.EAGAIN
    state.threads[new_id] = new_thread(start, argument, stack, is_detached == 1)
    state.threads[caller].registers[11] = new_id
    return 0


@guest_call(Call.JOIN, arguments=1, is_point=True)
def join(state, caller, target_id):
    if target_id == caller:
        return Error.EDEADLK
    if target_id not in state.threads:
        return Error.ESRCH
    target = state.threads[target_id]
    if target.is_detached or state.joiner_of(target_id):
        return Error.EINVAL
    if target.has_ended:
        state.threads[caller].registers[11] = target.value
        del state.threads[target_id]
        return 0
    state.block(caller, WaitKind.JOIN, target_id)
    return BLOCKED


@guest_call(Call.DETACH, arguments=1)
def detach(state, caller, target_id):
    if target_id not in state.threads:
        return Error.ESRCH
    target = state.threads[target_id]
    if target.is_detached or state.joiner_of(target_id):
        return Error.EINVAL
    if target.has_ended:
        del state.threads[target_id]
    else:
        target.is_detached = True
    return 0


@guest_call(Call.THREAD_EXIT, arguments=1)
def thread_exit(state, caller, value):
    state.begin_unwinding(caller, value)
    return MOVED


@guest_call(Call.SELF)
def self_id(state, caller):
    return caller


CANCELLABLE = (WaitKind.JOIN, WaitKind.INPUT, WaitKind.SLEEP, WaitKind.CONDITION)


@guest_call(Call.CANCEL, arguments=1)
def cancel(state, caller, target_id):
    """A request is set. An enabled thread that waits at a cancellation point acts on it at once.

    A condition's waiter unwinds from now on, but gets its mutex back before its next handler runs.
    """
    if target_id not in state.threads:
        return Error.ESRCH
    target = state.threads[target_id]
    if target.has_ended:
        return 0
    target.is_request_pending = True
    wait = state.wait_of(target_id)
    if target.is_disabled or wait is None or wait.kind not in CANCELLABLE:
        return 0
    state.end_wait(wait, "cancelled")
    if wait.kind is WaitKind.CONDITION:
        target.is_request_pending = False
        state.mark_unwinding(target_id, ALL_ONES)
        retake_mutex(state, wait.mutex, target_id, UNWIND)
    else:
        state.act_on_request(target_id)
    return 0


@guest_call(Call.TESTCANCEL, is_point=True)
def testcancel(state, caller):
    return 0


def change_setting(thread, setting, wanted):
    """The old setting is told in x11; an unwinding thread keeps what it has."""
    if wanted not in (0, 1):
        return Error.EINVAL
    thread.registers[11] = int(getattr(thread, setting))
    if not thread.is_unwinding:
        setattr(thread, setting, wanted == 1)
    return 0


@guest_call(Call.SETCANCELSTATE, arguments=1)
def setcancelstate(state, caller, wanted):
    return change_setting(state.threads[caller], "is_disabled", wanted)


@guest_call(Call.SETCANCELTYPE, arguments=1)
def setcanceltype(state, caller, wanted):
    return change_setting(state.threads[caller], "is_asynchronous", wanted)


@guest_call(Call.CLEANUP_PUSH, arguments=2)
def cleanup_push(state, caller, routine, argument):
    handlers = state.threads[caller].handlers
    if routine % 4:
        return Error.EINVAL
    if len(handlers) >= HANDLERS:
        return Error.EAGAIN
    handlers.append(Handler(routine, argument))
    return 0


@guest_call(Call.CLEANUP_POP, arguments=1)
def cleanup_pop(state, caller, is_executed):
    """The newest handler is removed; it runs, and returns behind the call, where the argument isn't 0."""
    thread = state.threads[caller]
    if not thread.handlers:
        return Error.EINVAL
    handler = thread.handlers.pop()
    if is_executed == 0:
        return 0
    thread.registers[1], thread.registers[10] = thread.pc, handler.argument
    thread.pc = handler.routine
    thread.sendings += 1
    return MOVED
