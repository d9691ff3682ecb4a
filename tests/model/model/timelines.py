"""The pieces of `ckrt timeline`: what each thread did at each step, as the recorded events are made again; and its trace events."""
from dataclasses import dataclass
from typing import NamedTuple

from model.listing import address_text
from model.stretches import is_plain
from model.threads import WaitKind

# The category of each wait, and how its activity is named; a mutex is got back behind a condition too.
WAITS = {WaitKind.JOIN: ("join", "waits to join thread {}"), WaitKind.LOCK: ("mutex", "waits for mutex {}"),
         WaitKind.RETAKE: ("mutex", "waits for mutex {}"), WaitKind.CONDITION: ("condition", "waits for condition {}"),
         WaitKind.BARRIER: ("barrier", "waits at barrier {}"), WaitKind.READ: ("rwlock", "waits for read-write lock {}"),
         WaitKind.WRITE: ("rwlock", "waits for read-write lock {}"), WaitKind.INPUT: ("input", "waits for input"),
         WaitKind.SLEEP: ("sleep", "sleeps")}


class Activity(NamedTuple):
    category: str
    name: str


@dataclass
class Piece:
    """So many steps of one activity, from a step of the stretch on."""
    activity: Activity
    start: int
    steps: int


def activity_of_wait(wait):
    category, name = WAITS[wait.kind]
    return Activity(category, name.format(wait.subject if wait.kind is WaitKind.JOIN else address_text(wait.subject)))


def activities(machine, hart):
    """What each thread does at the next step, which the thread on the hart makes."""
    done = {number: Activity("ended", "has ended") if thread.has_ended else Activity("ready", "is ready")
            for number, thread in machine.threads.items()}
    done.update((wait.thread, activity_of_wait(wait)) for wait in machine.waits)
    return {**done, machine.harts[hart]: Activity("running", f"runs on hart {hart}")}


class Timeline:
    """Looks on. `pieces` has those of each thread in their order, `events` at which step each event begins, `ends` how many events came
    before the stretch and up to its end."""

    def __init__(self):
        self.pieces, self.events, self.steps, self.ends = {}, [], 0, (0, 0)
        self.now = None

    def begin(self, machine, ends):
        self.ends = ends

    def begin_event(self, number):
        self.events.append((number, self.steps))
        self.now = None

    def look(self, machine, hart, step, make):
        """A plain step changes nothing of what others do at the next one."""
        if hart is None:
            return make()
        self.now = self.now or activities(machine, hart)
        for number, activity in self.now.items():
            self.lay(number, activity)
        self.steps += 1
        if not is_plain(machine, machine.harts[hart]):
            self.now = None
        return make()

    def lay(self, number, activity):
        """The last piece grows, where it is of this activity and ends here."""
        pieces = self.pieces.setdefault(number, [])
        if pieces and pieces[-1].activity == activity and pieces[-1].start + pieces[-1].steps == self.steps:
            pieces[-1].steps += 1
        else:
            pieces.append(Piece(activity, self.steps, 1))


def trace_events(timeline):
    """A microsecond is a step; all of it is one process."""
    shared = {"pid": 1}
    events = [{"name": "process_name", "ph": "M", **shared, "args": {"name": "guest"}}]
    events += [{"name": f"event {number}", "ph": "i", "ts": step, **shared, "tid": 0, "s": "p"} for number, step in timeline.events]
    for number, pieces in sorted(timeline.pieces.items()):
        events.append({"name": "thread_name", "ph": "M", **shared, "tid": number, "args": {"name": f"thread {number}"}})
        events += [{"name": piece.activity.name, "cat": piece.activity.category, "ph": "X", "ts": piece.start, "dur": piece.steps,
                    **shared, "tid": number} for piece in pieces]
    return events


def title_of(number, piece):
    return f"thread {number} {piece.activity.name}: {piece.steps} steps from step {piece.start}"
