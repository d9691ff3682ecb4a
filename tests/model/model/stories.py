"""A session of `ckrt debug` that goes another way on: its history, which may be cut, and made longer by events and by a drive's turns."""
from copy import deepcopy

from model.events import Eof, Input, Place, Run, Tick
from model.lines import LineFault, LineRefusal, parse
from model.machine import OUTPUT_OF_RUN
from model.motions import Steps, named
from model.plans import Options, next_event
from model.stretches import next_thread, show_event
from model.stubs import known_threads, live_threads, position_text, shown_at_first

ROOM = 65_536  # events more than are recorded
NOT_AT_END = "not at the end of the history: monitor fork ends it here"
NO_ROOM = "no room for another event"
ENDED = "the program has ended"
WANTS_INPUT = "the program waits for input: monitor event in HEX gives it some"
STANDS_STILL = "no thread can go on"
ENDS = {"waits for input": WANTS_INPUT, "deadlock": STANDS_STILL}
MOST_STEPS = 5_000  # of a run, but for those of a thread that jumps to its own place
JUMP_TO_ITSELF = 0x0000006F


class TooLong(Exception):
    """More steps than are made here."""


def make(machine, event):
    """Makes an event, and answers how many steps it has. A thread that jumps to its own place does so for all that are left of a run."""
    if not isinstance(event, Run):
        machine.step(event)
        return 0
    thread_id, put = machine.harts[event.hart], 0
    for made in range(event.steps):
        if made == MOST_STEPS:
            raise TooLong
        thread = machine.threads[thread_id]
        is_still = machine.memory.is_valid(thread.pc, 4) and machine.memory.load(thread.pc, 4) == JUMP_TO_ITSELF
        if is_still and not thread.is_request_pending:
            return event.steps
        reply, more = machine.step(Run(event.hart, 1))
        put += len(more)
        if not reply.endswith("on") or put == OUTPUT_OF_RUN:
            return made + 1
    return event.steps


def event_of(line):
    """That of a line for `ckrt run`, or what is wrong with it."""
    try:
        event = parse(line.encode())
    except LineFault as fault:
        return None, f"no {int(fault.refusal)} {fault.refusal.name}"
    if isinstance(event, (Place, Run, Input, Eof, Tick)):
        return event, None
    return None, f"no {int(LineRefusal.Unknown)} {LineRefusal.Unknown.name}"


class Story:
    """The machine as it was before the first event, the events, where one stands, and how far the disk has them too.

    `positions` has of each event how many there are before the next one; `named`
    is the thread of the last stop, and `known` up to which number gdb knows threads.
    """

    def __init__(self, recording, at=None):
        self.begin, self.first, self.whole = recording.machine, recording.first, recording.whole
        self.events, self.positions = [], []
        self.end = deepcopy(self.begin)
        for event in recording.events:
            self.append(event)
        self.recorded, self.known = self.whole, known_threads(self.begin, self.events)
        self.position = (self.first if at is None else at), 0
        self.named = shown_at_first(self.begin) if at is None else shown_at_first(self.machine_at(self.position), self.events[at - self.first:])

    @property
    def last(self):
        return self.first + len(self.events)

    def append(self, event):
        self.events.append(event)
        self.positions.append(max(make(self.end, event), 1))

    def has(self, position):
        event, step = position
        if position == (self.last, 0):
            return True
        return self.first <= event < self.last and step < self.positions[event - self.first]

    def machine_at(self, position):
        if position == (self.last, 0):
            return self.end
        event, step = position
        machine = deepcopy(self.begin)
        for made in self.events[:event - self.first]:
            make(machine, made)
        for _ in range(step):
            machine.step(Run(self.events[event - self.first].hart, 1))
        return machine

    def steps(self):
        """Of all events, for motions."""
        looker, machine = Steps(), deepcopy(self.begin)
        for number, event in enumerate(self.events, self.first):
            show_event(machine, number, event, looker)
        looker.end_event()
        return looker.steps

    def place_text(self):
        """With how far the disk has it, where that is less."""
        told = f", recorded to {self.recorded}" if self.recorded < self.last else ""
        return f"event {position_text(self.position)}, from {self.first} to {self.last}{told}\n"

    def named_at(self, position, before):
        """Whom a stop there names, where nobody's step is next the one before."""
        machine = self.machine_at(position)
        return named(next_thread(machine, self.events[position[0] - self.first:]), live_threads(machine), before)

    def stop(self):
        self.named = self.named_at(self.position, self.named)

    def goto(self, position):
        if self.has(position):
            self.position = position
            self.stop()
            return True
        return False

    def fork(self):
        """The events behind the position are forgotten; of a run that is under way the steps that are made stay."""
        event, step = self.position
        self.end = deepcopy(self.machine_at(self.position))
        kept = event - self.first
        cut = [Run(self.events[kept].hart, step)] if step else []
        self.events, self.positions = self.events[:kept] + cut, self.positions[:kept] + [step] * len(cut)
        self.recorded = min(self.recorded, event)
        self.position = self.last, 0
        return self.place_text()

    def reason_against(self, event):
        """Why one more isn't made; None where it may be."""
        if self.position != (self.last, 0):
            return NOT_AT_END
        if self.last - self.whole >= ROOM:
            return NO_ROOM
        refusal = None if event is None else self.end.refusal_of(event, 0)
        return None if refusal is None else f"no {int(refusal)} {refusal.name}"

    def add(self, line):
        event, fault = event_of(line)
        reason = fault or self.reason_against(event)
        if reason:
            return reason + "\n"
        self.append(event)
        self.position = self.last, 0
        self.stop()
        return self.place_text()

    def live(self, most):
        """The events that a drive without options has next; behind them all is one stop, also where there are none, but not before the end of
        the history. Where as many were made as were asked for, no more is told than that the program has ended."""
        made, reason = 0, self.reason_against(None)
        while reason is None and made < most and self.end.is_running:
            event = self.next_event()
            reason = event if isinstance(event, str) else self.reason_against(event)
            if reason is None:
                self.append(event)
                self.position, made = (self.last, 0), made + 1
        if reason != NOT_AT_END:
            self.stop()
        if reason is None and not self.end.is_running:
            reason = ENDED
        return "\n".join([f"events made: {made}", *[reason] * bool(reason), self.place_text()])

    def next_event(self):
        """Or why there is none."""
        event = next_event(Options(), self.last, self.end)
        return ENDS[event] if isinstance(event, str) else event
