"""The recorded run of a disk, or a stretch of its events, made again step by step for somebody who looks on."""
from copy import deepcopy

from model.devices import MemoryDisk
from model.events import Run
from model.listing import OutOfRange
from model.machine import OUTPUT_OF_RUN
from model.processor import ECALL
from model.recorded import fitting_older, recorded_areas
from model.recovery import events_of_journal, recover


class Recording:
    """What a disk has recorded: a machine as it was before the first event, and the events; and how many of them led to the last checkpoint,
    and whether an older area fits that leads elsewhere. Raises Unrecovered."""

    def __init__(self, contents):
        disk = MemoryDisk(contents)
        self.whole = recover(disk).events
        areas = recorded_areas(disk)
        self.machine, self.first = areas[0].machine, areas[0].events
        self.checkpoint = areas[-1].events
        self.is_misled = len(areas) == 1 and fitting_older(disk, areas[0]) is not None
        self.events = [event for found in areas for event in events_of_journal(disk, found)[0]]

    def ends(self, first=None, last=None):
        """Of a stretch, all if nothing else is said. Raises OutOfRange."""
        first, last = self.first if first is None else first, self.whole if last is None else last
        if not self.first <= first <= last <= self.whole:
            raise OutOfRange
        return first, last

    def show(self, looker, first=None, last=None):
        """Makes the events up to the last one of the stretch, of which the looker sees those of the stretch. Returns the looker."""
        self.made_up_to(looker, first, last)
        return looker

    def made_up_to(self, looker, first=None, last=None):
        """The same; returns the machine as it is then. A looker with `begin` is told the stretch, and sees the machine where it begins."""
        first, last = self.ends(first, last)
        machine = deepcopy(self.machine)
        for event in self.events[:first - self.first]:
            machine.step(event)
        if hasattr(looker, "begin"):
            looker.begin(machine, (first, last))
        for number, event in enumerate(self.events[first - self.first:last - self.first], first):
            show_event(machine, number, event, looker)
        return machine


def show_event(machine, number, event, looker):
    """A looker has `begin_event`, and `look`, which makes a step, or an event that is no run, by calling what it is handed."""
    looker.begin_event(number)
    if not isinstance(event, Run):
        looker.look(machine, None, 0, lambda: machine.step(event))
        return
    put = 0
    for step in range(event.steps):
        answer, more = looker.look(machine, event.hart, step, lambda: machine.step(Run(event.hart, 1)))
        put += len(more)
        if not answer.endswith("on") or put == OUTPUT_OF_RUN:
            break


def next_thread(machine, events):
    """Whose step is next before these events; None where the first one is no run, or is refused."""
    is_run = events and isinstance(events[0], Run) and machine.refusal_of(events[0], 0) is None
    return machine.harts[events[0].hart] if is_run else None


def acts_at_once(thread):
    """Whether the thread's next step is to act on a request, before any word is looked at."""
    return thread.is_request_pending and thread.is_asynchronous and not thread.is_disabled


def next_word(machine, thread_id):
    """The word that the thread executes in its next step; None where that step is another one."""
    thread = machine.threads[thread_id]
    if acts_at_once(thread) or not machine.memory.is_valid(thread.pc, 4):
        return None
    return machine.memory.load(thread.pc, 4)


def is_plain(machine, thread_id):
    """Whether the thread's next step is an instruction that calls nothing: it changes registers and memory alone, or faults."""
    return next_word(machine, thread_id) not in (None, ECALL)


def plain_thread(machine, hart):
    """The thread on a hart whose next step is such an instruction; None where there is none."""
    thread_id = None if hart is None else machine.harts[hart]
    return thread_id if thread_id is not None and is_plain(machine, thread_id) else None
