"""What lines get, reckoned without a disk: a second reading of sessions, beside `session.py`.

It knows no write, no gate and no stop, only which commits and checkpoints have work for the disk. One of these may be the
one that the disk fails: that is the life's fate.
"""
from dataclasses import dataclass, field

from model.abi import PAGE
from model.devices import MemoryDisk
from model.events import Place, Run, RunLong
from model.lines import Auto, LineFault, Plain, lines_of, parse
from model.machine import Machine, Refusal
from model.recovery import recover
from model.switches import newest_version

BATCH, GATE_AND_LENGTH, COUNTED, LAST_GENERATION = 4096, 3, 2 ** 62, 2 ** 64 - 1
CHARACTERS = 64  # in a line of output
QUIT, COMMIT, CHECKPOINT = Plain(b"quit"), Plain(b"commit"), Plain(b"checkpoint")


@dataclass
class Ledger:
    """`output` is what was put from the offset `confirmed` on; `accepted` are this life's events."""
    machine: Machine
    journal: int
    events: int
    confirmed: int
    output: bytearray
    room: int
    generation: int
    version: int
    fate: int | None = None
    accepted: list = field(default_factory=list)
    released_bytes: bytearray = field(default_factory=bytearray)
    pending: int = 0
    works: int = 0
    has_failed: bool = False

    def __post_init__(self):
        self.acknowledged, self.committed_output = self.events, len(self.output)

    def submit(self, event):
        """The reply, and whether the event was taken."""
        length = len(event.encoding())
        refusal = self.machine.refusal_of(event, len(self.output))
        if self.has_failed:
            return "no 21 Failed", False
        if self.version == 1 and isinstance(event, RunLong):
            return "no 27 NeedsCheckpoint", False
        if refusal is not None:
            return f"no {int(refusal)} {Refusal(refusal).name}", False
        if self.pending + length > BATCH:
            return "no 22 BatchFull", False
        if GATE_AND_LENGTH + self.pending + length > self.room:
            return "no 23 JournalFull", False
        if max(self.events + 1, self.confirmed + len(self.output) + 1024) >= COUNTED:
            return "no 24 CountersUsed", False
        answer, put = self.machine.step(event)
        self.output += put
        self.events, self.pending = self.events + 1, self.pending + length
        self.accepted.append(event)
        return f"ok {self.events} {answer}", True

    def make_durable(self, command):
        """The replies to a commit or checkpoint."""
        if self.has_failed:
            return ["no 21 Failed"]
        if command == CHECKPOINT and self.generation == LAST_GENERATION:
            return ["no 26 GenerationsUsed"]
        has_work = command == CHECKPOINT or self.pending > 0
        self.works += has_work
        if has_work and self.works == self.fate:
            self.has_failed = True
            return ["no 25 Device"]
        if command == CHECKPOINT:
            self.room, self.generation = self.journal - 1, self.generation + 1
            self.version = newest_version()
        elif has_work:
            self.room -= GATE_AND_LENGTH + self.pending
        self.pending, self.acknowledged, self.committed_output = 0, self.events, len(self.output)
        return [f"ack {self.events}"] + self.lines_of_output()

    def lines_of_output(self):
        """The committed bytes that were not shown in this life, which are then confirmed."""
        shown, texts = self.output[:self.committed_output], []
        for start in range(0, len(shown), CHARACTERS):
            texts.append(f"out {self.confirmed + start} {shown[start:start + CHARACTERS].hex()}")
        self.released_bytes += shown
        self.confirmed, self.output = self.confirmed + len(shown), self.output[len(shown):]
        self.committed_output = 0
        return texts

    def replies_to(self, command):
        """The replies to any command but quit."""
        if isinstance(command, Plain):
            return self.make_durable(command) if command in (COMMIT, CHECKPOINT) else []
        if not isinstance(command, Auto):
            return [self.submit(command)[0]]
        thread, replies = self.machine.planned(command.hart), []
        if thread is not None:
            reply, is_taken = self.submit(Place(command.hart, thread))
            replies = [reply]
            if not is_taken:
                return replies
        return replies + [self.submit(Run(command.hart, command.steps))[0]]


def ledger_of(contents, fate=None):
    """Of a life on a disk with these bytes, which don't change. Raises Unrecovered."""
    found = recover(MemoryDisk(bytearray(contents)))
    held = bytearray(found.held)
    return Ledger(found.machine, found.geometry.journal, found.events, found.output_length - len(held), held,
                  found.geometry.journal - 1 - found.journal_used, found.generation, found.version, fate)


def transcript(contents, data, fate=None):
    """The reply lines to the input, where the disk fails the commit or checkpoint of that number, of those with work for it."""
    ledger = ledger_of(contents, fate)
    replies = ledger.lines_of_output()
    for line in lines_of(data):
        try:
            command = parse(line)
        except LineFault as fault:
            replies.append(f"no {int(fault.refusal)} {fault.refusal.name}")
            continue
        if command == QUIT:
            break
        replies += ledger.replies_to(command)
    return replies


class Fold:
    """The plain fold of a list of events: a machine, what it has put, and how much of it after each event."""

    def __init__(self, geometry, image):
        self.machine = Machine(geometry.pages, geometry.harts, image + bytes(PAGE * (geometry.pages - 1) - len(image)))
        self.put, self.lengths = bytearray(), [0]

    def over(self, events):
        for event in events:
            if self.machine.refusal_of(event, 0) is not None:
                raise ValueError(f"{event} is refused")
            self.put += self.machine.step(event)[1]
            self.lengths.append(len(self.put))
        return self
