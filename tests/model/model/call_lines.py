"""The lines of `ckrt calls`: the calls of the guest, what ends waits, and the events between, as the recorded events are made again.

A position is how many events were done, and how many steps of the next one.
"""
from model.abi import Call
from model.calls import moment_of
from model.devices import MemoryDisk
from model.events import Eof, Input, Place, Run, Tick
from model.listing import OutOfRange, address_text, reason_of_wait, text_of_fault, text_of_wait
from model.machine import OUTPUT_OF_RUN
from model.processor import ECALL
from model.recorded import recorded_areas
from model.recovery import Unrecovered, events_of_journal, recover, unmade
from model.threads import Status, WaitKind

# How the arguments of a call are told: `a` is a word that may be an address, `n` a number, `m` a moment, of two words.
ARGUMENTS = {
    "": [Call.GETC, Call.CLOCK, Call.SELF, Call.TESTCANCEL],
    "n": [Call.EXIT, Call.PUTC, Call.JOIN, Call.DETACH, Call.CANCEL, Call.SETCANCELSTATE, Call.SETCANCELTYPE,
          Call.CLEANUP_POP, Call.KEY_DELETE, Call.GETSPECIFIC],
    "a": [Call.THREAD_EXIT, Call.MUTEX_DESTROY, Call.MUTEX_LOCK, Call.MUTEX_TRYLOCK, Call.MUTEX_UNLOCK, Call.COND_INIT,
          Call.COND_DESTROY, Call.COND_SIGNAL, Call.COND_BROADCAST, Call.BARRIER_DESTROY, Call.BARRIER_WAIT,
          Call.RWLOCK_INIT, Call.RWLOCK_DESTROY, Call.RWLOCK_RDLOCK, Call.RWLOCK_TRYRDLOCK, Call.RWLOCK_WRLOCK,
          Call.RWLOCK_TRYWRLOCK, Call.RWLOCK_UNLOCK, Call.KEY_CREATE],
    "m": [Call.SLEEP_UNTIL], "na": [Call.SETSPECIFIC], "an": [Call.MUTEX_INIT, Call.BARRIER_INIT],
    "aa": [Call.COND_WAIT, Call.CLEANUP_PUSH], "am": [Call.MUTEX_TIMEDLOCK], "aam": [Call.COND_TIMEDWAIT],
    "aaan": [Call.CREATE],
}
FORMS = {call: form for form, calls in ARGUMENTS.items() for call in calls}
# How the second answer is told, of the calls that have one; those of `clock` are a moment.
SECOND_ANSWERS = {Call.CREATE: "n", Call.JOIN: "a", Call.SETCANCELSTATE: "n", Call.SETCANCELTYPE: "n",
                  Call.KEY_CREATE: "n", Call.GETSPECIFIC: "a"}


def word_text(form, word):
    return address_text(word) if form == "a" else str(word)


def argument_texts(form, words):
    """Of the words from x10 on."""
    return [str(moment_of(*words[at:at + 2])) if kind == "m" else word_text(kind, words[at]) for at, kind in enumerate(form)]


def call_text(number, words):
    """The name and the arguments; of a number that no call has the number."""
    if number not in FORMS:
        return f"call {number}"
    return f"{Call(number).name.lower()}({', '.join(argument_texts(FORMS[number], words))})"


def next_call(machine, thread_id):
    """The number of the call that the thread makes in its next step; None where that step is none."""
    thread = machine.threads[thread_id]
    acts = thread.is_request_pending and thread.is_asynchronous and not thread.is_disabled
    if acts or not machine.memory.is_valid(thread.pc, 4) or machine.memory.load(thread.pc, 4) != ECALL:
        return None
    return thread.registers[17]


def answer_text(thread, number):
    """The second answer stands there with a first one of 0."""
    first, second = thread.registers[10:12]
    if number == Call.CLOCK:
        return f"= {moment_of(first, second)}"
    return f"= {first}" + (f", {word_text(SECOND_ANSWERS[number], second)}" if number in SECOND_ANSWERS and first == 0 else "")


def outcome_text(machine, thread_id, place, number):
    """What became of a thread by its call of this number, or by the end of its wait: it waits, or is at the place behind the
    call with an answer, or it isn't there."""
    wait = machine.wait_of(thread_id)
    if wait is not None:
        return f"waits {text_of_wait(wait)}"
    thread = machine.threads.get(thread_id)
    is_there = thread is not None and not thread.has_ended and thread.pc == place and machine.is_running
    return answer_text(thread, number) if is_there else "= ?"


class Teller:
    """Makes events again on a machine, and tells what they did."""

    def __init__(self, machine, done):
        self.machine, self.done = machine, done

    def lines_of_event(self, event):
        """The lines of the next event, which is done then."""
        lines = self.lines_of_run(event) if isinstance(event, Run) else self.lines_of_moment(event)
        self.done += 1
        return lines

    def lines_of_moment(self, event):
        """An event that is no run has its line, and those of the waits that it ends."""
        places = self.waiting_places()
        self.machine.step(event)
        return [f"{self.done}+0 {event_text(event)}", *self.lines_of_ends(0, places)]

    def lines_of_run(self, run):
        """Of a run its steps alone have lines."""
        lines, put = [], 0
        for step in range(run.steps):
            more, answer, length = self.lines_of_step(run.hart, step)
            lines += more
            put += length
            if not answer.endswith("on") or put == OUTPUT_OF_RUN:
                break
        return lines

    def lines_of_step(self, hart, step):
        """The lines, the reply to the step, and how many bytes it put."""
        machine, thread_id, places = self.machine, self.machine.harts[hart], self.waiting_places()
        thread, number = machine.threads[thread_id], next_call(machine, thread_id)
        words, behind = thread.registers[10:14], thread.pc + 4
        answer, put = machine.step(Run(hart, 1))
        lines = []
        if number is not None:
            outcome = outcome_text(machine, thread_id, behind, number)
            lines.append(f"{self.done}+{step} thread {thread_id} {call_text(number, words)} {outcome}")
        lines += self.lines_of_ends(step, places)
        if machine.status is Status.FAULTED:
            lines.append(f"{self.done}+{step} {text_of_fault(machine)}")
        return lines, answer, len(put)

    def waiting_places(self):
        """The waits, and where their threads go on."""
        return [(wait, self.machine.threads[wait.thread].pc) for wait in self.machine.waits]

    def lines_of_ends(self, step, places):
        """A line for each wait that the last step or event ended, in the order of their begins; its deadline isn't told again."""
        return [f"{self.done}+{step} thread {wait.thread} {reason_of_wait(wait)} is over "
                f"{outcome_text(self.machine, wait.thread, place, number_of_wait(wait))}"
                for wait, place in places if wait in self.machine.ended_waits]


def number_of_wait(wait):
    """Of the calls that wait, `join` alone has a second answer."""
    return Call.JOIN if wait.kind is WaitKind.JOIN else None


def event_text(event):
    match event:
        case Place(hart, thread):
            return f"place {hart} {thread}"
        case Tick(count):
            return f"tick {count}"
        case Input(data):
            return f"input {data.hex()}"
        case Eof():
            return "eof"


def told_of_journal(disk, found):
    """The lines of each event in the journal of an area, from what that saves on, up to one that isn't accepted at its turn."""
    teller, told = Teller(found.machine, found.events), []
    for event in events_of_journal(disk, found)[0]:
        if teller.machine.refusal_of(event, 0) is not None:
            break
        told.append(teller.lines_of_event(event))
    return told


def told_of_areas(disk, areas):
    return [lines for found in areas for lines in told_of_journal(disk, found)]


class History:
    """What a disk tells of the events that it has recorded, by event. Raises Unrecovered."""

    def __init__(self, contents):
        disk = MemoryDisk(contents)
        self.whole = recover(disk).events
        areas = recorded_areas(disk)
        self.first = areas[0].events
        self.told = told_of_areas(disk, areas)

    def lines(self, first=None, last=None):
        """Of the events behind the first so many, and up to the last: all, if nothing else is said."""
        first, last = self.first if first is None else first, self.whole if last is None else last
        if not self.first <= first <= last <= self.whole:
            raise OutOfRange
        return [line for lines in self.told[first - self.first:last - self.first] for line in lines]


def lines_before_refused(contents, first=None):
    """Of a disk that doesn't recover, behind the first so many events: the lines up to the event that isn't accepted at its turn. None are
    known of one that is damaged otherwise."""
    disk = MemoryDisk(contents)
    try:
        unmade(disk)
        areas = recorded_areas(disk)
    except Unrecovered:
        return []
    begin = areas[0].events
    return [line for lines in told_of_areas(disk, areas)[max(0, (first or 0) - begin):] for line in lines]


def kind_of_line(line):
    """An event's name, or whether a call or a wait ends, and how: the thread waits, has an answer, or is elsewhere."""
    words = line.split()
    if words[1] != "thread":
        return words[1]
    outcome = line.rpartition(" is over ")[2].split()
    return f"{'end' if ' is over ' in line else 'call'} {'waits' if 'waits' in outcome else outcome[-1] if outcome[-1] == '?' else '='}"
