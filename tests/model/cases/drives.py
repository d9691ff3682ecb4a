"""Cases of drives: several of one disk, one behind the other, and then all their events by one drive of a fresh disk."""
from dataclasses import dataclass, field, replace

from cases.driven import UNFED, Driven, Feeding, contents
from cases.readers import READERS, READS_ALL, sleeps
from model.feeding import COUNTERS, SLOTS_APART, Slot
from model.layout import Geometry, format_disk
from model.plans import Options

LENGTHS = [0, 1, 63, 64, 65, 4096, 4097]
LONG_LENGTHS = range(19_000, 21_001)
OFFSETS = [0, 1, 64, 192, 4096, COUNTERS - 1, COUNTERS]
EVENTS_OF_LOOPS, TURN_OF_LOOPS = 600, 300


@dataclass
class DrivesCase:
    """A disk that is formatted with an image and some bytes behind it, the options of each drive, the bytes of an input, and
    what each drive is told of that."""
    geometry: Geometry
    image: bytes
    version: int | None
    drives: list
    behind: bytes = b""
    data: bytes = b""
    feedings: list = field(default_factory=list)

    def __post_init__(self):
        self.feedings = self.feedings or [UNFED] * len(self.drives)

    @property
    def is_alike(self):
        """Whether all drives are told the same, so that they come to what one comes to."""
        return len(set(self.feedings)) == 1 and self.feedings[0].said is None

    def disk(self):
        return bytearray(format_disk(self.geometry, self.image, self.version) + self.behind)

    def unbroken(self):
        """One drive that has as many events as all."""
        counts = [options.events for options in self.drives]
        return replace(self.drives[0], events=None if None in counts else sum(counts))


def drives_case(chance, case):
    """Three of five with an input."""
    unfed = unfed_case(chance, case)
    return fed_case(chance, unfed) if chance.random() < 0.6 else unfed


def unfed_case(chance, case):
    """Short turns and few rounds, so that threads meet and the journal fills."""
    options = Options(chance.choice([1, 3, 10, 40, 200]), chance.choice([1, 2, 5, 50]), chance.choice([None, None, 0, 1, 2 ** 64 - 1, 77]))
    drives = [replace(options, rounds=chance.choice([options.rounds, 1, 9]), events=chance.choice([0, 1, 7, 40, 150]))
              for _ in range(chance.choice([1, 2, 4]))]
    return DrivesCase(case.geometry, case.image, case.version, drives)


def fed_case(chance, unfed):
    """With an input, mostly for a guest that reads."""
    fed = reading_case(chance, unfed, chance.choice([None, *READERS]))
    return careless(chance, fed) if chance.random() < 0.35 else fed


def reading_case(chance, unfed, reader):
    """Half of the disks have some bytes behind them already."""
    length = chance.choice(LENGTHS[:5] if reader is sleeps else [*LENGTHS, chance.choice(LONG_LENGTHS)])
    fed = replace(unfed, behind=bytes_behind(chance), data=chance.randbytes(length))
    if reader is not None:
        fed.geometry = Geometry(16, chance.choice([1, 1, 2, 3]), chance.choice([4096, 4096, 8192, 65536]))
        fed.image, fed.version = reader(chance), None
    fed.drives = drives_of_reader(chance, unfed.drives, length, reader in READS_ALL)
    fed.feedings = [Feeding()] * len(fed.drives)
    return fed


def careless(chance, fed):
    """Each drive is told something else. Of the shortest journal each commit comes to a checkpoint, so one without the input makes
    it unknown how much was taken."""
    fed.geometry = replace(fed.geometry, journal=4096)
    fed.drives = [fed.drives[0]] + fed.drives
    fed.feedings = [feeding(chance, len(fed.data)) for _ in fed.drives]
    return fed


def drives_of_reader(chance, drives, length, ends):
    """The last one of a guest that ends has as many events as it takes. One that may loop has short turns, since the model makes each step."""
    turn = chance.choice([50, 1000, 70_000]) if length > 100 else drives[0].turn
    turn = turn if ends else min(turn, TURN_OF_LOOPS)
    drives = [replace(options, turn=turn, events=chance.choice([options.events, 3, 64, 65, 90])) for options in drives]
    return drives + [replace(drives[0], events=None if ends else EVENTS_OF_LOOPS)]


def feeding(chance, length):
    """Often without the input, at times with a file that lost bytes or an offset that isn't the disk's."""
    if chance.random() < 0.35:
        return chance.choice([UNFED] * 5 + [Feeding(is_fed=False, said=0)])
    return Feeding(lacking=chance.choice([0] * 5 + [1, 64, length]), said=chance.choice([None] * 8 + OFFSETS))


def bytes_behind(chance):
    """None, too few or enough for the record, at times with a slot for a generation that needs none."""
    drawn = chance.randbytes(chance.choice([0, 0, 1, 40, 4095, 4096, 5000]))
    forged = Slot(1, 0, 7).encoding() + bytes(SLOTS_APART - 40) + Slot(2, 0, 7).encoding() + bytes(2 * SLOTS_APART)
    return chance.choice([drawn, drawn, drawn, forged])


def difference_of_drives(ckrt, case, folder, tally, count_life):
    """None, or in a few words where the two differ."""
    drives = list(zip(case.drives, case.feedings))
    difference = difference_of_list(ckrt, case, drives, folder, "several", tally, count_life)
    if difference is not None or not case.is_alike:
        return difference
    difference = difference_of_list(ckrt, case, [(case.unbroken(), case.feedings[0])], folder, "unbroken", tally, count_life)
    if difference is None and contents(folder / "several.out") != contents(folder / "unbroken.out"):
        return "several drives have another output than one"
    return difference


def difference_of_list(ckrt, case, drives, folder, name, tally, count_life, begun=None):
    """On the case's disk, or on one that is begun, with the bytes of its output."""
    driven = Driven(ckrt, case, folder, name, tally, count_life, begun)
    for number, (options, feeding) in enumerate(drives, 1):
        difference = driven.drive(options, feeding)
        if difference is not None:
            return f"{name}, drive {number} ({options}, {feeding}): {difference}"
    return None
