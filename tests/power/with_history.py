"""Drives that keep a history, on a file system that is cut, and what has to be so of it behind a cut (docs/HISTORIES.md).

Disks are driven by a schedule that stays, so what their histories have is known: the events of the same run, which nothing cuts.
"""
from dataclasses import dataclass, field
from typing import NamedTuple

from promises import Finding, Run
from shared import disks, reading
from shared.comparing import first_difference
from shared.histories import is_free, is_history
from work import BEGUN, COUNT, Place, drive_again, expect_output, format_again, said, seed_of, shown

LARGEST_JOURNAL = 1_048_576  # bytes
TURNS, LONG_TURN = (30, 100, 400), 5_000  # steps; with the long one the guest is at its end behind some ten events


class Whole(NamedTuple):
    """A run that nothing cuts, of a disk without a history: the lines of its events, and its calls as `ckrt calls` prints them."""

    events: list
    calls: bytes


@dataclass
class KeptPlace(Place):
    """As Place, where each drive of a disk goes by the same turn, and keeps a history beside it."""

    rounds_behind: tuple = 64, 256
    wholes: dict = field(default_factory=dict)

    def turn(self, name):
        return LONG_TURN if name.startswith(BEGUN) else TURNS[seed_of(name) % len(TURNS)]

    def history(self, name):
        return self.folder / f"{name}.history"

    def files(self, name):
        return [*super().files(name), self.history(name).name]

    def drive_words(self, name, *more):
        return super().drive_words(name, "--history", self.history(name), *more)

    def rhythm(self, name, _turn, rounds):
        return "--turn", str(self.turn(name)), "--rounds-per-commit", str(rounds)

    def whole(self, name):
        """The run of a disk with this name. It is made once, in the folder beside the file system."""
        if name not in self.wholes:
            output = self.images / f"{name}.out"
            output.unlink(missing_ok=True)
            made = disks.make(self.ckrt, self.images / f"{name}.whole", self.image(name), pages=self.pages, journal=LARGEST_JOURNAL)
            said([self.ckrt, "drive", made, "--output", output, "--turn", str(self.turn(name))])
            expect_output(output, name)
            self.wholes[name] = Whole(reading.events(made.read_bytes()), said([self.ckrt, "calls", made]).stdout)
        return self.wholes[name]


@dataclass
class KeptRun(Run):
    """What was promised of a disk whose drives keep a history."""

    place: KeptPlace = None

    def look_beside(self, folder, name):
        """The history has a beginning of the events, and lacks at most the disk's last batch. It is none yet where the disk has no event."""
        disk, path = (folder / f"{name}.disk").read_bytes(), self.place.history(name)
        data, wanted = path.read_bytes() if path.exists() else b"", self.place.whole(name).events
        ends, lines = reading.disk_ends(disk), reading.events(disk)
        if lines != wanted[ends[-1] - len(lines):ends[-1]]:
            raise Finding(f"{name}.disk: its {len(lines)} events up to the {ends[-1]}th are others than those of the run that nothing cuts")
        if is_history(data):
            count = looked_at(self.place, path, wanted)
            if count not in ends[-2:]:
                raise Finding(f"{path.name} has {count} events, where the disk has {ends[-1]}, of which its last batch begins behind {ends[-2:][0]}")
        elif ends[-1]:
            raise Finding(f"{path.name} is no history, where the disk has {ends[-1]} events")


def looked_at(place, path, wanted):
    """How many events a history has, by the reader, which have to be a beginning of these. `ckrt history` has to tell the same."""
    try:
        first, events, length = reading.history(path.read_bytes())
    except reading.read_disk.Fault as fault:
        raise Finding(f"{path.name}: {fault}") from None
    if first or events != wanted[:len(events)]:
        at = first_difference(events, wanted)
        raise Finding(f"{path.name} begins behind event {first}, and has {len(events)} events, of which the {at}th is another one than where nothing cuts")
    words, told = [place.ckrt, "history", path], f"events 0 to {len(events)}\nbytes {length}\n"
    done = said(words)
    if (done.returncode, done.stdout.decode()) != (0, told):
        raise Finding(f"{shown(words, done)}, in place of {told!r}")
    return len(events)


def go_on_kept(place, name, one, chance):
    """Gives the same commands again behind a cut, until the guest has ended: its output is whole, and its history has all events."""
    if not one.formatted:
        format_again(place, name)
    path, whole = place.history(name), place.whole(name)
    if path.exists() and not is_history(left := path.read_bytes()) and not is_free(left):
        path.unlink()  # the cut tore its name, or left other bytes there
    drive_again(place, name, chance)
    expect_output(place.folder / f"{name}.out", name)
    if (count := looked_at(place, path, whole.events)) != len(whole.events):
        raise Finding(f"{path.name} has {count} events at the end, of {len(whole.events)}")
    words = [place.ckrt, "calls", "--history", path]
    done = said(words)
    if done.returncode or done.stdout != whole.calls:
        raise Finding(f"{shown(words, done)}, in place of the calls of the disk that nothing cuts")


def new_run(place, wanted):
    """What is promised of a disk that is made, whose guest puts these bytes."""
    return KeptRun(wanted, place=place)
