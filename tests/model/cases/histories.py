"""Cases of `ckrt calls`: disks with events in their journals, and stretches of these."""
from dataclasses import dataclass

from cases.damage import refuse_event
from cases.older_areas import OlderArea
from cases.saved_disks import ChangedArea, asks, serve_and_save, with_checkpoints
from cases.streams import joined
from cases.traced import listed_disk
from model.lines import serve_disk
from model.recorded import ends_of_history


@dataclass
class HistoriesCase:
    """A disk, and stretches of its events that `calls` is asked for: from and to, None where nothing is said."""
    contents: bytes
    stretches: list

    def disk(self):
        return bytearray(self.contents)


def with_saves(chance, lines):
    """The lines with one or several checkpoints among them, most with a commit before: only then no event is missing."""
    fed = list(lines)
    for _ in range(chance.choice([1, 1, 2, 3, 5])):
        at = chance.randrange(len(fed) + 1)
        fed[at:at] = [b"commit", b"checkpoint"] if chance.random() < 0.85 else [b"checkpoint"]
    return fed


def recorded_disk(chance, case):
    """A disk with events in its journal: a guest's from its begin on, or from a checkpoint on; a crowd's; or those of a disk that
    is listed. Of most the older area has events too, and of some that area is changed."""
    disk, lines, kind = case.disk(), case.lives[0].splitlines(), chance.random()
    if kind < 0.1:
        return listed_disk(chance, case)
    if kind < 0.3:
        serve_and_save(chance, disk, lines[:chance.choice([1, 20, len(lines)])])
        ChangedArea(chance, disk).crowd()
        lines = asks(chance, case.geometry.harts)[:-1]
    is_saved, is_changed = chance.random() < 0.8, chance.random() < 0.5
    if is_saved:
        lines = with_checkpoints(chance, lines, 0.02) if chance.random() < 0.1 else with_saves(chance, lines)
    serve_disk(disk, joined(chance, [*lines, b"commit"]))
    if is_saved and is_changed:
        OlderArea(chance, disk).change()
    return disk


def drawn_stretches(chance, disk):
    """The whole, parts that begin or end anywhere, and stretches that a disk mostly hasn't."""
    first, whole = ends_of_history(disk)
    begin, end, *both = (chance.randrange(first, whole + 1) for _ in range(4))
    outside = [max(first - 1, 0), whole + 1, chance.choice([0, 2 ** 32, 2 ** 64 - 1])]
    odd = [(chance.choice(outside), None), (None, chance.choice(outside)), (chance.choice(outside), whole), (whole, first)]
    return [(None, None), (begin, None), (None, end), tuple(sorted(both)), *chance.sample(odd, 2)]


def is_turned(first, last):
    """Whether a stretch would end before it begins: such words are refused before the disk is opened."""
    return first is not None and last is not None and last < first


def disk_with_stretches(chance, case):
    """A recorded disk, and stretches of its events. At times an event in use is then refused at its turn."""
    disk = recorded_disk(chance, case)
    stretches = drawn_stretches(chance, disk)
    if chance.random() < 0.15:
        refuse_event(chance, disk)
    return bytes(disk), stretches


def histories_case(chance, case):
    return HistoriesCase(*disk_with_stretches(chance, case))
