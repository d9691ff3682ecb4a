"""Cases for the program under trace: lists of lives with stops, calls of the disk that fail, transfers in parts, listings."""
from dataclasses import dataclass
from random import Random

from cases.damage import Damage
from cases.formats import MAKING
from cases.life_lists import commands_of, life_list, random_fill, some_lines
from cases.saved_disks import ChangedArea, asks, serve_and_save, stopped_disk
from cases.tracing import Plan
from model.devices import MemoryDisk
from model.foreseen import Course
from model.layout import MAGIC, Geometry, format_disk
from model.recovery import Unrecovered, read_area, read_superblock, recover


@dataclass
class LivesCase:
    """`texts` are the lines of each life, malformed ones among them."""
    geometry: Geometry
    image: bytes
    listed: list
    texts: list

    def disk(self):
        return bytearray(format_disk(self.geometry, self.image))


@dataclass
class TracedCase:
    """A disk, a life's lines on it, what is done to the program meanwhile, and the lines of the life after it."""
    contents: bytes
    lines: list
    plan: Plan
    lines_after: list

    def disk(self):
        return bytearray(self.contents)


@dataclass
class CutCase:
    """A file of the size of a disk, `format` on it, and the call at which it is stopped."""
    geometry: Geometry
    image: bytes
    before: bytes
    stop_at: int
    fill: bytes

    def disk(self):
        return bytearray(self.before)


@dataclass
class ListingsCase:
    """A disk, and options of `inspect`: after how many events (None: all), and whether with code."""
    contents: bytes
    options: list

    def disk(self):
        return bytearray(self.contents)


def lists_case(chance, case):
    """A list of lives, stopped at random calls by a kill."""
    return LivesCase(case.geometry, case.image, *life_list(chance, case))


def used_disk(chance, case):
    """A disk with events and perhaps checkpoints, the lines that are left, and some that every disk gets."""
    lines = case.lives[0].splitlines()
    cut = chance.choice([1, 4, 20])
    contents, left = case.disk(), lines
    if chance.random() < 0.6:
        contents, left = stopped_disk(chance, contents, lines[:cut])
        left = left + lines[cut:]
    return bytes(contents), left, asks(chance, case.geometry.harts)


def fates_case(chance, case):
    """One write or sync of a life fails, or one of the first reads."""
    contents, lines, after = used_disk(chance, case)
    fed = some_lines(chance, lines)[0] + [b"tick 1", b"run 0 x", b"commit", b"tick 2", b"checkpoint", b"commit", b"in 41", b"checkpoint"]
    calls = len(Course(contents, commands_of(fed)).calls)
    if chance.random() < 0.15:
        plan = Plan(fail_read_at=chance.randrange(1, 7))
    else:
        plan = Plan(fail_at=chance.choice([1, 2, chance.randrange(1, 7), *[chance.randrange(1, calls + 1)] * 3]),
                    kept=chance.choice([0, 0, 1, 3, 100]))
    return TracedCase(contents, fed, plan, after)


def parts_case(chance, case):
    """All transfers in parts, or interrupted: nothing of it is seen."""
    contents, lines, after = used_disk(chance, case)
    fed = some_lines(chance, lines)[0] + [b"tick 1", b"commit", b"checkpoint"]
    return TracedCase(contents, fed, Plan(parts=Random(chance.random())), after)


def ends_of_journal(contents):
    """How many events led to the journal's begin, and to its end; none of a disk that doesn't recover."""
    device = MemoryDisk(bytearray(contents))
    try:
        whole = recover(device).events
        return read_area(device, read_superblock(device)).events, whole
    except Unrecovered:
        return 0, 0


def counts_to_ask(chance, contents):
    """Numbers of events before, in and behind the journal."""
    first, whole = ends_of_journal(contents)
    near = [first, whole, whole + 1, max(first - 1, 0), 0, chance.choice([2 ** 32, 2 ** 62, 2 ** 64 - 1])]
    return chance.sample(range(first, whole + 1), min(3, whole + 1 - first)) + chance.sample(near, 3)


def listed_disk(chance, case):
    """A disk with a state that the model saved, at times with a crowd or damaged, and a journal behind it; one that a stop
    left; or one that was never saved and is damaged anywhere, or too short to be one."""
    disk, lines = case.disk(), case.lives[0].splitlines()
    cut, kind = chance.choice([1, 4, 20, len(lines)]), chance.random()
    if kind < 0.2:
        return Damage(chance).disk
    if kind < 0.6:
        return stopped_disk(chance, disk, lines[:cut])[0]
    serve_and_save(chance, disk, lines[:cut])
    if chance.random() < 0.4:
        ChangedArea(chance, disk).crowd()
    if chance.random() < 0.2:
        ChangedArea(chance, disk).damage()
    return disk


def listings_case(chance, case):
    """A disk, shown whole and after some of its events."""
    disk = listed_disk(chance, case)
    asked = [(at, chance.random() < 0.5) for at in counts_to_ask(chance, disk)]
    return ListingsCase(bytes(disk), [(None, False), (None, True), *asked])


def cuts_case(chance, seed):
    """`format` stopped at a call, on a file that has zeros, or what a making or a format that was cut left; at times a longer one."""
    geometry = Geometry(chance.choice([16, 16, 17, 20]), chance.choice([1, 2, 8]), chance.choice([4096, 8192]))
    image = chance.randbytes(chance.choice([0, 24, 4096, 5000, geometry.image_limit]))
    before = bytearray(geometry.size) + chance.randbytes(chance.choice([0, 0, 1, 4096]))
    if chance.random() < 0.5:
        before[:geometry.size] = bytes(8) + chance.choice([MAKING, MAGIC]) + chance.randbytes(geometry.size - 16)
    stop_at = chance.choice([0, *range(1, 16), chance.randrange(1, geometry.pages + 16)])
    return CutCase(geometry, image, bytes(before), stop_at, random_fill(chance))
