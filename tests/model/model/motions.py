"""Where a session of `ckrt debug` comes to, on and back, with breakpoints and watches: over the list of all steps of a recorded run."""
from dataclasses import dataclass
from typing import NamedTuple

from model.accesses import access_of
from model.processor import Cause
from model.threads import Status

SIGNALS = {Cause.ILLEGAL: "04", Cause.BREAKPOINT: "05", Cause.JUMP_MISALIGNED: "0a", Cause.LOAD_MISALIGNED: "0a",
           Cause.STORE_MISALIGNED: "0a"}
SEGMENT = "0b"
END, BEGIN = "T05replaylog:end;", "T05replaylog:begin;"
CHANGES, LOADS, ACCESSES = 2, 3, 4  # the kinds of watches, as their packets number them
WATCHED = {CHANGES: "T05watch:", LOADS: "T05rwatch:", ACCESSES: "T05awatch:"}  # what a stop at each begins with
CHANGE = tuple(WATCHED.values())


@dataclass
class Step:
    """The position before it and the one behind it, whose it is and where, the bytes that it changes, those that it loads and those that it
    stores to, and the fault that it ends with; and which threads are there before it and behind it."""
    before: tuple
    thread: int
    place: int
    changed: frozenset
    fault: int = 0
    behind: tuple = ()
    there: frozenset = frozenset()
    left: frozenset = frozenset()
    loaded: frozenset = frozenset()
    stored: frozenset = frozenset()

    def meets(self, watch):
        """Whether it does with a byte of a watch what that is for."""
        met = {CHANGES: self.changed, LOADS: self.loaded, ACCESSES: self.loaded | self.stored}[watch.kind]
        return bool(met & watch.bytes())


class Steps:
    """Looks on, and lists the steps."""

    def __init__(self):
        self.steps, self.event = [], 0

    def begin_event(self, number):
        """The last step of an event leads to where the next one begins."""
        self.event = number
        self.end_event()

    def end_event(self):
        if self.steps:
            self.steps[-1].behind = self.steps[-1].before[0] + 1, 0

    def look(self, machine, hart, step, make):
        if hart is None:
            return make()
        if self.steps:
            self.steps[-1].behind = self.steps[-1].behind or (self.event, step)
        thread = machine.harts[hart]
        access = access_of(machine, thread, (self.event, step))
        span = range(access.address, access.address + access.length) if access else ()
        stored, loaded = (span, ()) if access and access.is_store else ((), span)
        old = {address: machine.memory.load(address, 1) for address in stored}
        self.steps.append(Step((self.event, step), thread, machine.threads[thread].pc, frozenset(), there=those_there(machine),
                               loaded=frozenset(loaded), stored=frozenset(stored)))
        made = make()
        self.steps[-1].left = those_there(machine)
        self.steps[-1].changed = frozenset(address for address, byte in old.items() if machine.memory.load(address, 1) != byte)
        self.steps[-1].fault = machine.fault_cause if machine.status is Status.FAULTED else 0
        return made


def those_there(machine):
    return frozenset(number for number, thread in machine.threads.items() if not thread.has_ended)


def next_step(steps, place):
    """The one that is next at a position; None where nobody's is."""
    return next((step for step in steps if step.before == place), None)


def threads_at(steps, place):
    """Those that are there: nothing but a step changes that."""
    behind = next((step for step in steps if step.before >= place), None)
    return behind.there if behind else steps[-1].left


def named(running, there, before):
    """Whom a stop names, of those that are there: the thread whose step is next; where nobody's is the one that was to step, or that of the
    stop before."""
    return running or named_instead(there, before)


def who_ended(machine, steps):
    """Who ended a program: the thread of its fault, or the one of the last step; None where it hasn't ended, or where no step is known."""
    if machine.status is Status.FAULTED:
        return machine.fault_thread
    return steps[-1].thread if steps and machine.status is not Status.RUNNING else None


def before_end(answer, ender, before):
    """Whom a stop names where nobody's step is next: after the end of a program the thread that ended it."""
    return ender if answer == END and ender is not None else before


def named_instead(there, thread):
    """In place of one that has ended stands the first."""
    return thread if thread in there else min(there, default=1)


def text_of_stop(why, thread):
    """With the thread that is named."""
    return f"{why}thread:{thread:x};"


def thread_of_stop(payload):
    """Whom it names."""
    return int(payload.rpartition("thread:")[2][:-1], 16)


class Watch(NamedTuple):
    """From an address on so many bytes."""
    address: int
    length: int
    kind: int = CHANGES

    def bytes(self):
        return set(range(self.address, self.address + self.length))


@dataclass
class Stops:
    """Breakpoints, and watches in the order in which they are inserted: each an address, a length and, where it is none of changes, a kind."""
    places: list
    watches: list

    def __post_init__(self):
        self.watches = [Watch(*watch) for watch in self.watches]

    def packets(self):
        return [*[f"Z0,{place:x},4" for place in self.places], *[f"Z{watch.kind},{watch.address:x},{watch.length:x}" for watch in self.watches]]

    def at_change(self, step):
        """The stop at a step that meets a watch: of several that which was inserted first. None where there is none."""
        met = [watch for watch in self.watches if step.meets(watch)]
        return f"{WATCHED[met[0].kind]}{met[0].address:x};thread:{step.thread:x};" if met else None

    def at_place(self, step):
        """The stop before a step at a breakpoint; None where it is at none."""
        return plain_stop(step) if step.place in self.places else None


def plain_stop(step):
    """It names the thread whose step is next."""
    return f"T05thread:{step.thread:x};"


def signal_of(fault):
    return SIGNALS.get(Cause(fault), SEGMENT)


def stepped(steps, stops, place, last, thread):
    """Behind the next step of a thread. What another one has a breakpoint or a watch at ends it before, a watch of its own, too.
    A breakpoint is told first, and a change there when it is asked again, since where it begins no breakpoint counts."""
    for step in steps:
        if step.before < place:
            continue
        is_own = step.thread == thread
        told = (None if is_own or step.before == place else stops.at_place(step)) or stops.at_change(step)
        if told:
            return step.before, told
        if is_own:
            return step.behind, text_of_stop(f"T{signal_of(step.fault) if step.fault else '05'}", named_instead(step.left, thread))
        if step.fault:
            return step.behind, f"T{signal_of(step.fault)}thread:{step.thread:x};"
    return last, END


def own_step(steps, place, thread):
    """The next one of a thread; None where there is none."""
    return next((step for step in steps if step.thread == thread and step.before >= place), None)


def stepped_back(steps, stops, place, first, thread):
    """Before the last step of a thread. What another one has a breakpoint or a watch at ends it on the way, a watch of its own, too.
    Where the step that led there changed what is watched, that is told."""
    for step in reversed([step for step in steps if step.behind <= place]):
        if stops.at_change(step):
            return step.behind, stops.at_change(step)
        if step.thread == thread or step.place in stops.places:
            return step.before, change_behind(steps, stops, step.before) or plain_stop(step)
    return first, BEGIN


def change_behind(steps, stops, place):
    """The stop behind the step that led to a position, if that changed what is watched."""
    return next((stops.at_change(step) for step in steps if step.behind == place), None)


def onward(steps, stops, place, last):
    """The least position behind this one whose next step is at a breakpoint, or before a change, where it may stay; or behind the
    step of a fault. A breakpoint is told first, and a change there when it is asked again, since where it begins no breakpoint counts."""
    for step in steps:
        if step.before < place:
            continue
        told = (stops.at_place(step) if step.before > place else None) or stops.at_change(step)
        if told:
            return step.before, told
        if step.fault:
            return step.behind, f"T{signal_of(step.fault)}thread:{step.thread:x};"
    return last, END


def backward(steps, stops, place, first):
    """The greatest position before this one whose next step is at a breakpoint, or behind a change, where it may stay. Where it is both, the
    change is told."""
    found = {step.before: stops.at_place(step) for step in steps if step.before < place and stops.at_place(step)}
    found |= {step.behind: stops.at_change(step) for step in steps if step.behind <= place and stops.at_change(step)}
    return (max(found), found[max(found)]) if found else (first, BEGIN)


def end_of_steps(counts, place, most, is_onward, ends):
    """Where a motion of so many steps ends: behind the event in which it makes the last of them, or at that one's begin going back; None
    where there are no more. `counts` has of each event with steps how many; another one counts as one."""
    event, step = place
    made = -step if is_onward else step
    if not is_onward and made >= most:
        return event, 0
    for number in range(event, ends[1]) if is_onward else reversed(range(ends[0], event)):
        made += counts.get(number, 1)
        if made >= most:
            return number + is_onward, 0
    return None
