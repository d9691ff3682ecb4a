"""Cases of `ckrt drive --history`: a disk that is driven in pieces, with the option and without, and run by lines between them. At times something else
lies in the history's place: nothing, another file, an older copy, the history of another run or of another program."""
from dataclasses import dataclass, field, replace
from random import Random

from cases.beside import APART, FREE, NOT_FREE, OTHER, Ask, Beside, Pieces, fed_in_pieces
from cases.driven import Driven, Feeding, contents
from cases.mixed import DriveStep, MixedCase
from model.beside import Keeper, Unkept, begun_from, is_free, read_history
from model.feeding import RECORD_LENGTH, Undriven
from model.layout import format_disk
from model.lines import serve_disk
from model.plans import Options

REFUSALS = "NotAHistory", "HistoryBehind", "HistoryDiffers"
STRETCHES = 4  # that are looked at in the end
MISSING, BYTES, OLDER, APART_FROM = "missing", "bytes", "older", "apart"


@dataclass(frozen=True)
class KeptDrive:
    """A drive with the option. One that its history refuses is given again where no file is there, or is left."""
    options: Options
    feeding: Feeding
    is_anew: bool = True

    def on(self, keeping):
        difference = keeping.drive_kept(self.options, self.feeding)
        if difference is None and keeping.was_refused and self.is_anew:
            keeping.beside.remove()
            difference = keeping.drive_kept(self.options, self.feeding)
        return difference


@dataclass(frozen=True)
class BringUp:
    """`ckrt history` between drives."""

    def on(self, keeping):
        disk = bytes(keeping.disk)
        keeping.beside.other.write_bytes(disk)
        return keeping.beside.bring_up(disk)


@dataclass(frozen=True)
class Placed:
    """What is put into the history's place: nothing, some bytes, the history as it was behind so many steps before, or one that is begun from the disk as
    it was then, with lines of its own, or from a disk of another program."""
    which: str
    back: int = 0
    data: bytes = b""

    def on(self, keeping):
        keeping.beside.place(self)


@dataclass
class KeptCase(MixedCase):
    """`before` is what lies in the history's place first; None where nothing does. `is_made` tells that the first drive makes the disk."""
    before: bytes | None = None
    is_made: bool = False
    seed: int = 0


class KeptPieces(Pieces):
    """Drives, mostly with the option, lives of lines, and what is done to the history between them."""

    def step(self):
        chance = self.chance
        if chance.random() < 0.2:
            self.steps.append(drawn_placed(chance, len(self.steps)))
        if chance.random() < 0.1:
            self.steps.append(BringUp())
        if chance.random() < 0.1:
            self.drive_wrongly()
        elif chance.random() < 0.25:
            self.serve()
        else:
            self.drive(self.feeding(), chance.choice(self.fed.drives))

    def feeding(self):
        """With the offset, at times, since lives of lines save the disk."""
        feeding = self.fed.feedings[0]
        return replace(feeding, said=self.right_offset()) if feeding.is_fed and self.chance.random() < 0.7 else feeding

    def drive(self, feeding, options=None):
        super().drive(feeding, options)
        step = self.steps.pop()
        self.steps.append(self.kept(step) if self.chance.random() < 0.7 else step)

    def kept(self, step):
        return KeptDrive(step.options, step.feeding, self.chance.random() < 0.8)

    def drive_wrongly(self):
        """Onto an output that doesn't fit, with an input that is too short, or by another schedule."""
        chance, options = self.chance, self.chance.choice(self.fed.drives)
        match chance.choice(["output", "input", "schedule"]):
            case "output":
                self.resize(chance.choice(["below", "above"]))
                self.steps.append(self.kept(DriveStep(options, self.fed.feedings[0])))
                self.resize("released")
            case "input":
                self.steps.append(self.kept(DriveStep(options, replace(self.fed.feedings[0], lacking=len(self.fed.data)))))
            case "schedule":
                self.steps.append(self.kept(DriveStep(replace(options, turn=options.turn + 1, is_other=False), self.fed.feedings[0])))


def drawn_placed(chance, number):
    which = chance.choices([MISSING, BYTES, OLDER, APART_FROM, OTHER], [10, 20, 45, 15, 10])[0]
    data = {BYTES: [b"", *FREE, *NOT_FREE], APART_FROM: APART}.get(which, [b""])
    return Placed(which, chance.choice([1, 2, 3, number]), chance.choice(data))


def kept_case(chance, case):
    """Half of them with an input, and three of ten on a disk that the first drive makes. At last a drive with the option."""
    fed = fed_in_pieces(chance, case, [0, 1, 7, 40, 90, 150])
    is_made = fed.version is None and chance.random() < 0.3
    if is_made:
        fed.behind = bytes(RECORD_LENGTH * fed.feedings[0].is_fed)
    pieces = KeptPieces(chance, fed, case.lives[0].splitlines())
    pieces.drive(fed.feedings[0], chance.choice(fed.drives))
    for _ in range(chance.choice([2, 4, 6, 9])):
        pieces.step()
    pieces.steps.append(KeptDrive(chance.choice(fed.drives), pieces.feeding()))
    before = chance.choice([None, None, None, b"", chance.choice(FREE), chance.choice(NOT_FREE)])
    return KeptCase(fed.geometry, fed.image, fed.version, fed.drives, fed.behind, fed.data, fed.feedings, pieces.steps, before, is_made, chance.randrange(1 << 32))


class PlacedBeside(Beside):
    """A history in whose place other files are put. `copies` are what lay there behind each step, and what that had recorded."""

    def __init__(self, ckrt, case, folder, tally):
        super().__init__(ckrt, case, folder, tally)
        self.copies = []

    def note(self, disk):
        """What is there behind a step."""
        self.disks.append(bytes(disk))
        self.copies.append((contents(self.path), self.kept, self.length))

    def place(self, placed):
        """None of the earlier ones is there before the first step."""
        self.tally["in the history's place", placed.which] += 1
        self.remove()
        if placed.which == BYTES:
            self.path.write_bytes(placed.data)
        elif placed.which == OLDER and self.copies:
            data, self.kept, self.length = self.copies[max(0, len(self.copies) - placed.back)]
            self.path.write_bytes(data)
        elif placed.which == APART_FROM and self.disks:
            disk = bytearray(self.disks[max(0, len(self.disks) - placed.back)])
            serve_disk(disk, placed.data)
            self.begin_from(bytes(disk))
        elif placed.which == OTHER:
            self.begin_from(self.disk_for(Ask(OTHER)))

    def begin_from(self, disk):
        data = begun_from(disk)
        self.path.write_bytes(data)
        self.kept, self.length = read_history(data)

    def difference_behind_drive(self, before, keeper):
        """`before` are the bytes that the file had; None where it was missing. Where the drive was refused before it kept a history, a file that was
        missing is at most one in which a history may be begun."""
        if keeper.line is None:
            is_same = contents(self.path) == before or before is None and is_free(contents(self.path))
            return None if is_same else "a history that was refused has other bytes"
        self.tally["history of a drive", keeper.line.split()[0]] += 1
        return self.difference_of_bytes(before or b"", keeper.disk, keeper.kept)


class Seeing(Keeper):
    """With the disk's bytes that it was begun from, or brought up to."""

    def begin(self, disk):
        self.disk = disk.read(0, len(disk))
        super().begin(disk)


class Keeping(Driven):
    """A disk, its output and its history on both sides."""

    FAULTS_BEHIND_ROOM = "OutputDiffers", *REFUSALS

    def __init__(self, ckrt, case, folder, tally, count_life):
        super().__init__(ckrt, case, folder, "kept", tally, count_life)
        self.beside, self.was_refused = PlacedBeside(ckrt, case, folder, tally), False

    def drive_kept(self, options, feeding):
        beside = self.beside
        before = beside.path.read_bytes() if beside.path.exists() else None
        self.keeper, self.more = Seeing(beside.kept, before or b""), ["--history", beside.path]
        difference = self.drive(options, feeding)
        keeper, self.keeper, self.more = self.keeper, None, []
        return difference or beside.difference_behind_drive(before, keeper)

    def drive_of_model(self, options, feeding, path):
        """A refusal of the history comes behind those of the schedule and of the input, and before that of the output."""
        self.was_refused = False
        try:
            return super().drive_of_model(options, feeding, path)
        except Unkept as fault:
            self.was_refused = True
            return 1, [Undriven(str(fault), self.beside.path)]


def kept_behind(ckrt, case, folder, tally, count_life):
    """None, or in a few words where the two differ behind a step; and the history."""
    keeping = Keeping(ckrt, case, folder, tally, count_life)
    if case.is_made:
        keeping.made_by(case.image)
    for number, step in enumerate(case.steps, 1):
        difference = step.on(keeping)
        if difference is not None:
            return f"step {number} ({str(step)[:300]}): {difference}", keeping.beside
        keeping.beside.note(keeping.disk)
    return None, keeping.beside


def difference_of_kept(ckrt, case, folder, tally, count_life):
    """None, or in a few words where the two differ."""
    difference, beside = kept_behind(ckrt, case, folder, tally, count_life)
    return difference or beside.difference_of_looks(STRETCHES)
