"""What a cut of the power may leave of a logged disk.

At a moment a write is *kept for sure* where a flush that has been answered came behind the write's answer. Of the other writes
that have come, a disk may have kept none, all, a beginning, some, or parts of some, torn at 512 or 4,096 bytes.
"""
from bisect import bisect_left, bisect_right
from operator import attrgetter

from logged_disk import Blocks, Flush, Note, Write

FORGOTTEN = 50  # of so many writes that were flushed a forgetful device loses one
DEVICES = "last flush", "forgetful"
BEHIND_A_MAKER = 30  # moments
BEGINS = b"life begun"  # lives of disks that are driven for some events


class Leaves:
    """How a device treats each write that isn't kept for sure, in the order in which they came."""

    KINDS = ["nothing", "all", "a beginning", "a beginning", "some", "some", "some", "torn", "torn", "torn"]

    def __init__(self, chance, units):
        self.chance, self.kind, self.unit = chance, chance.choice(self.KINDS), chance.choice(units)
        self.share = chance.random()

    def __str__(self):
        return f"{self.kind} at {self.unit} bytes" if self.kind == "torn" else self.kind

    def parts(self, number, count, write):
        """What is kept of the write with a number among so many."""
        if self.kind == "all" or (self.kind == "a beginning" and number < self.share * count):
            return [(write.offset, write.data)]
        if self.kind == "some" and self.chance.random() < self.share:
            return [(write.offset, write.data)]
        if self.kind == "torn":
            pieces = range(0, len(write.data), self.unit)
            return [(write.offset + at, write.data[at:at + self.unit]) for at in pieces if self.chance.random() < self.share]
        return []


class Cutter:
    """Images of one logged disk, at moments that don't fall. `device` names what a wrong device does, if it is one."""

    def __init__(self, blocks, log, chance, units, device=None):
        self.base, self.chance, self.units, self.device = Blocks(blocks), chance, units, device
        self.writes = [entry for entry in log if isinstance(entry, Write)]
        answered = [entry for entry in log if isinstance(entry, Flush) and entry.answered]
        self.flushes = sorted(answered, key=attrgetter("answered"))
        self.done = 0  # so many writes are in the base

    def horizon(self, moment):
        """The moment at which the last flush came that has been answered: what was answered before it is kept for sure."""
        count = bisect_right(self.flushes, moment, key=attrgetter("answered"))
        came = sorted(flush.came for flush in self.flushes[:count])
        if not came:
            return 0
        if self.device == "last flush":
            last = max((write.answered for write in self.writes if write.answered < came[-1]), default=0)
            before = bisect_left(came, last)
            return came[before - 1] if before else 0
        return came[-1]

    def keep(self, blocks, write):
        if self.device != "forgetful" or self.chance.randrange(FORGOTTEN):
            blocks.write(write.offset, write.data)

    def image_at(self, moment):
        """What is left by a cut at a moment, and how it was chosen."""
        horizon, end = self.horizon(moment), bisect_right(self.writes, moment, key=attrgetter("came"))

        def is_sure(write):
            return 0 < write.answered < horizon

        while self.done < end and is_sure(self.writes[self.done]):
            self.keep(self.base, self.writes[self.done])
            self.done += 1
        blocks, leaves, number = Blocks(self.base), Leaves(self.chance, self.units), 0
        behind = self.writes[self.done:end]
        count = sum(not is_sure(write) for write in behind)
        for write in behind:
            if is_sure(write):
                self.keep(blocks, write)
                continue
            for offset, data in leaves.parts(number, count, write):
                blocks.write(offset, data)
            number += 1
        return blocks, f"{leaves} of {count} writes"


def spans_of_makers(notes):
    """From where to where ckrt-files ran, and a few moments more."""
    begin = None
    for note in notes:
        if note.data.startswith(b"making "):
            begin = note.came
        elif note.data.startswith(b"made ") and begin:
            yield begin, note.came + BEHIND_A_MAKER


def moments_of(log, count, chance):
    """Moments to cut at, rising: within any life, as a disk is made or begun, as a write has just come, behind what was noted or printed, or as files
    are made, if they are."""
    notes = [entry for entry in log if isinstance(entry, Note)]
    first, last = notes[0].came, notes[-1].came
    lives = [note for note in notes if note.data.startswith(b"life ")]
    spans = [(life.came, after.came) for life, after in zip(lives, [*lives[1:], notes[-1]])]
    making = [span for life, span in zip(lives, spans) if b" format" in life.data or life.data.startswith(BEGINS)]
    makers = list(spans_of_makers(notes))
    writes = [entry.came for entry in log if isinstance(entry, Write) and first < entry.came < last]
    draws = [lambda: chance.randint(*chance.choice(spans)), lambda: chance.randint(*chance.choice(making)),
             lambda: chance.choice(writes), lambda: chance.choice(notes).came + chance.choice([0, 0, 1, 2, 5])]
    draws += [lambda: chance.randint(*chance.choice(makers))] * 2 * bool(makers)
    return sorted(draws[number % len(draws)]() for number in range(count))
