"""Cases of snapshots: the history of a case of `kept`, with right ones and wrong ones beside it. Looks show of it what they show without them, but for where
`ckrt debug --at` begins."""
import shutil
from dataclasses import replace
from random import Random

from cases.beside import stretch_of
from cases.debugged import SETTINGS, DebuggedCase, difference_of_outcomes, drawn_look, outcome_in, outcome_of_program, packets_of, visiting_case
from cases.kept import KeptCase, kept_behind, kept_case
from model.beside import KeptHistory, part_of
from model.events import Run
from model.layout import OPEN
from model.snapshots import DIGEST, LEADING, KeptRecording, begun_at, bytes_of_snapshot, lengths_of, note_of, saved_by

STEPS = 40_000  # of a history, in which a session is made, at most
LOOKS = 4
RIGHT, NOTE, LENGTH, APART, CLOSED, CUT, TEXT = "right", "another digest", "another length", "of another history", "closed", "cut short", "a text"


class SnapshotsCase(KeptCase):
    """In the end there are snapshots."""


def snapshots_case(chance, case):
    return SnapshotsCase(**vars(kept_case(chance, case)))


class Snapshots:
    """The snapshots that are drawn beside a history on both sides, by their numbers."""

    def __init__(self, ckrt, beside, tally):
        self.ckrt, self.beside, self.tally, self.chance = ckrt, beside, tally, Random(beside.case.seed + 2)
        self.kept, self.contents, self.folder, self.files = beside.kept, beside.path.read_bytes(), beside.path.with_name("history.snapshots"), {}

    def draw(self):
        """At ends of batches. A wrong one has the state of another moment, so that it matters whether it is taken."""
        lengths, chance = lengths_of(self.contents), self.chance
        for number in chance.sample(sorted(lengths), min(len(lengths), chance.choice([1, 2, 3, 5]))):
            kind = chance.choices([RIGHT, NOTE, LENGTH, APART, CLOSED, CUT, TEXT], [50, 10, 10, 10, 5, 10, 5])[0]
            self.files[number] = self.drawn(kind, number, self.contents[:lengths[number]])
            self.tally["snapshot", kind] += 1

    def drawn(self, kind, number, leading):
        chance, kept = self.chance, self.kept
        moment = number if kind == RIGHT else chance.randint(kept.first, kept.last)
        data = bytearray(bytes_of_snapshot(replace(part_of(kept, moment, moment), first=number), note_of(leading)))
        if kind == NOTE:
            data[chance.randrange(DIGEST.start, DIGEST.stop)] ^= chance.choice([1, 0x80])
        elif kind == LENGTH:
            data[LEADING] = max(0, len(leading) + chance.choice([-1, 1, 3, -(1 << 20)])).to_bytes(8, "little")
        elif kind == APART:
            data[LEADING.start:DIGEST.stop] = note_of(leading[:-1] + bytes([leading[-1] ^ 1]))
        elif kind == CLOSED:
            data[0] = chance.choice([0, OPEN ^ 1])
        elif kind == CUT:
            del data[chance.choice([0, 72, 80, 112, 4096, chance.randrange(len(data))]):]
        return b"some words\n" if kind == TEXT else bytes(data)

    def difference(self):
        """None, or in a few words where the two differ. Nothing is changed."""
        self.folder.mkdir()
        for number, data in self.files.items():
            (self.folder / str(number)).write_bytes(data)
        beside = self.beside
        difference = beside.difference_of_calls(self.kept, beside.path, [stretch_of(self.kept, self.chance) for _ in range(LOOKS)])
        difference = difference or beside.difference_of_listings(self.kept, beside.path) or self.difference_of_debug()
        is_left = beside.path.read_bytes() == self.contents and {int(path.name): path.read_bytes() for path in self.folder.iterdir()} == self.files
        if difference is None:
            shutil.rmtree(self.folder)
        return difference or (None if is_left else "a look changed the history or its snapshots")

    def difference_of_debug(self):
        """A session begins with the nearest snapshot, or with the history's own first state."""
        kept, chance = self.kept, self.chance
        if sum(event.steps for event in kept.events if isinstance(event, Run)) > STEPS:
            return None
        at = chance.choice([kept.last, chance.randint(kept.first, kept.last), *[number + chance.choice([0, 0, 1]) for number in self.files]])
        at = min(at, kept.last)
        seen = begun_at(kept, self.contents, self.files, at)
        self.tally["begin of a session", "from a snapshot" if seen is not kept else "from the first state"] += 1
        pages = self.beside.case.geometry.pages
        looks = [drawn_look(chance, (at, 0), pages, is_event=False) for _ in range(2)]
        asked = DebuggedCase(b"", first_looks=looks, settings=chance.sample(SETTINGS, chance.randrange(3)), at=at, is_acknowledged=chance.random() < 0.3)
        recording = KeptRecording(seen)
        case = visiting_case(chance, self.beside.case, asked, recording)
        difference = difference_of_outcomes(packets_of(case), outcome_in(case, recording), outcome_of_program(self.ckrt, case, self.beside.path, ["--history"]))
        return difference and f"debug --at {at}, with snapshots {sorted(self.files)}, of which {self.taken()} are taken: {difference}"

    def taken(self):
        return sorted(number for number, data in self.files.items() if saved_by(data, self.contents))


def difference_of_snapshots(ckrt, case, folder, tally, count_life):
    """None, or in a few words where the two differ."""
    difference, beside = kept_behind(ckrt, case, folder, tally, count_life)
    # of a history that was begun from a copy of the disk that went another way an event may not be accepted at its turn
    if difference is not None or beside.kept is None or KeptHistory(beside.kept).refused is not None:
        return difference
    snapshots = Snapshots(ckrt, beside, tally)
    snapshots.draw()
    return snapshots.difference()
