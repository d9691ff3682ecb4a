"""Cases of a disk that is driven with an input, driven without it, and run by lines that save it: so that it can't tell how much of the
input was taken. Then drives with offsets, right ones and wrong ones, onto outputs that fit and such as don't."""
from dataclasses import dataclass, field, replace

from cases.driven import UNFED, Driven, Feeding, cut, keep
from cases.drives import DrivesCase, reading_case, unfed_case
from cases.readers import READERS, READS_ALL, sleeps
from cases.streams import joined
from model.devices import MemoryDisk
from model.feeding import COUNTERS, Undriven, taken_by
from model.lines import serve_disk
from model.plans import Drive, Options
from model.recovery import events_of_journal, recover
from model.session import Session
from model.switches import SWITCHES

EVENTS_AT_LAST = 400
LENGTHS = [0, 64, 500, 4097, 9000]
RESIZINGS = ["confirmed", "released", "below", "above"]


@dataclass(frozen=True)
class DriveStep:
    options: Options
    feeding: Feeding

    def on(self, driven):
        return driven.drive(self.options, self.feeding)


@dataclass(frozen=True)
class Lines:
    """A life of lines, whose output is kept or is lost."""
    data: bytes
    is_kept: bool

    def on(self, driven):
        return driven.serve(self.data, self.is_kept)


@dataclass(frozen=True)
class Resizing:
    """The output gets the length of a bound of what fits, or a byte beyond one; of none that can't be."""
    which: str

    def length(self, disk):
        session = Session(MemoryDisk(bytearray(disk)))
        first, last = session.confirmed, session.released
        return max(0, {"confirmed": first, "released": last, "below": first - 1, "above": last + 1}[self.which])

    def on(self, driven):
        driven.cut(self.length(driven.disk))


@dataclass
class MixedCase(DrivesCase):
    steps: list = field(default_factory=list)


class Mixing:
    """Steps one behind the other, each done by the model at once, so that what comes next can hang on what it came to."""

    def __init__(self, chance, fed):
        self.chance, self.fed, self.steps = chance, fed, []
        self.disk, self.output, self.taken = fed.disk(), bytearray(), 0

    def drive(self, feeding, options=None):
        """With some events, if nothing else is said."""
        options = options or self.chance.choice(self.fed.drives[:-1])
        self.steps.append(DriveStep(options, feeding))
        if feeding.is_out_of_range:
            return
        try:
            drive = Drive(MemoryDisk(self.disk), self.output, options, None, feeding.data(self.fed.data), feeding.said)
        except Undriven:
            return
        drive.run()
        self.taken = drive.supply.taken if drive.supply else self.taken

    def serve(self):
        """Lines that end by one that makes them durable."""
        last = self.chance.choice([b"commit", b"checkpoint", b"checkpoint"])
        life = Lines(joined(self.chance, [*self.lines(), last]), self.chance.random() < 0.8)
        replies = serve_disk(self.disk, life.data)
        self.taken += sum(int(reply.split()[3]) for reply in replies if reply.split()[2:3] == ["taken"])
        self.steps.append(life)
        if life.is_kept:
            keep(self.output, replies)

    def lines(self):
        """Some that go on with the input, between runs and others."""
        chance, given = self.chance, self.taken
        for _ in range(chance.choice([1, 4, 12])):
            if chance.random() < 0.5:
                piece = self.fed.data[given:given + chance.choice([1, 5, 64])] or b"\0"
                given += len(piece)
                yield b"in " + piece.hex().encode()
            else:
                yield b"auto %d %d" % (chance.randrange(self.fed.geometry.harts), chance.choice([9, 300, 5000]))
            yield chance.choice([b"", b"", b"", b"commit", b"tick 3", b"checkpoint", chance.choice([b"eof", b"", b"", b""])])

    def resize(self, which):
        step = Resizing(which)
        cut(self.output, step.length(self.disk))
        self.steps.append(step)

    def right_offset(self):
        """How much was taken of the input when the area in use was saved."""
        device = MemoryDisk(bytearray(self.disk))
        return self.taken - taken_by(events_of_journal(device, recover(device))[0])

    def offset(self):
        right = self.right_offset()
        wrong = [right + 1, max(0, right - 1), 0, len(self.fed.data), COUNTERS - 1, COUNTERS]
        return self.chance.choice([None, None, right, right, self.chance.choice(wrong)])

    def step(self):
        match self.chance.choice(["fed", "fed", "fed", "fed", "unfed", "lines", "lines", "lines", "resized"]):
            case "fed":
                self.drive(Feeding(said=self.offset()))
            case "unfed":
                self.drive(UNFED)
            case "lines":
                self.serve()
            case "resized":
                self.resize(self.chance.choice(RESIZINGS))


def mixed_case(chance, case):
    """At last an output that fits, and a drive with the right offset."""
    reader = chance.choice([it for it in READERS if it is not sleeps])
    fed = reading_case(chance, unfed_case(chance, case), reader)
    fed.geometry = replace(fed.geometry, journal=chance.choice([4096, 4096, 8192]))
    fed.data, fed.behind = chance.randbytes(chance.choice(LENGTHS)), chance.choice([b"", fed.behind])
    fed.drives = [replace(options, turn=chance.choice([20, 50, 300]), is_other=SWITCHES.schedules) for options in fed.drives]
    mixing = Mixing(chance, fed)
    if chance.random() < 0.5:
        mixing.drive(Feeding())
    else:
        mixing.serve()
        mixing.drive(Feeding(said=mixing.offset()))
    for _ in range(chance.choice([2, 4, 8])):
        mixing.step()
    mixing.resize("released")
    mixing.drive(Feeding(said=mixing.right_offset()), replace(fed.drives[-1], events=None if reader in READS_ALL else EVENTS_AT_LAST))
    return MixedCase(fed.geometry, fed.image, fed.version, fed.drives, fed.behind, fed.data, [Feeding()] * len(fed.drives), mixing.steps)


def difference_of_mixed(ckrt, case, folder, tally, count_life):
    """None, or in a few words where the two differ."""
    driven = Driven(ckrt, case, folder, "mixed", tally, count_life)
    for number, step in enumerate(case.steps, 1):
        difference = step.on(driven)
        if difference is not None:
            return f"step {number} ({step}): {difference}"
    return None
