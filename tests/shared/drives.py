"""Drives of a guest that are killed at random moments and given again, until it has ended."""
import random
from dataclasses import dataclass
from pathlib import Path
from typing import NamedTuple

from shared import lives
from shared.comparing import Failure, expect

SHORTEST_LIFE = 0.001  # seconds, from the disk's making on
LONGEST_LIFE = 0.08  # seconds until a kill, and as many more behind each hundred kills, so that a busy machine gets to the end too
KILLS = 100
MOST_KILLS = 5000
TURNS, ROUNDS = [50, 400, 3_000], [1, 3, 16]  # of a life: the most steps of a turn, and the rounds from a commit to the next one


class Counts(NamedTuple):
    """Runs, kills in them, and those of the kills that came before the disk was there."""

    runs: int = 0
    kills: int = 0
    in_making: int = 0

    def __str__(self):
        return f"{self.runs} runs, {self.kills} kills, {self.in_making} of them while the disk was made"


def add_up(rounds, least_rounds, least_kills):
    """The counts of so many rounds, and of as many more as it takes to so many kills. Each round gives the counts of its runs."""
    total = Counts()
    for number, counts in enumerate(rounds, 1):
        total = Counts(*map(sum, zip(total, *counts)))
        if number >= least_rounds and total.kills >= least_kills:
            return total
    return total


def add_amounts(parser, rounds):
    """Adds --rounds and --kills, which say together how much is driven."""
    parser.add_argument("--rounds", type=int, default=rounds, help=f"how many rounds ({rounds})")
    parser.add_argument("--kills", type=int, default=0, help="and as many more as it takes to so many kills (0)")


@dataclass
class Drives:
    """A guest that is driven from nothing by one command, which makes its disk, and what came out of it so far."""

    ckrt: Path
    folder: Path  # for the disk and the output
    image: Path
    options: list  # that each life has
    chance: random.Random
    longest: float = LONGEST_LIFE  # seconds
    held: bytes = b""
    kills_in_making: int = 0

    def __post_init__(self):
        self.disk, self.output = self.folder / "disk", self.folder / "output"
        for file in (self.disk, self.output):
            file.unlink(missing_ok=True)
        self.moments = lives.moments(self.chance, SHORTEST_LIFE, self.longest, KILLS)

    def drive(self, *target):
        """One life: whether it came to its end, and what it printed. It raises Failure where it ended otherwise."""
        rhythm = ["--turn", str(self.chance.choice(TURNS)), "--other-schedule", "--rounds-per-commit", str(self.chance.choice(ROUNDS))]
        words = [self.ckrt, "drive", self.disk, *target, "--image", self.image, *self.options, *rhythm]
        end = lives.live(words, next(self.moments))
        if end.status is None:
            self.expect_whole_or_missing()
        elif end.status or not end.said.startswith(b"ended: exit"):
            raise Failure(f"status {end.status}: {end.said.decode(errors='replace')}")
        return end.status == 0, end.printed

    def expect_whole_or_missing(self):
        """What a kill leaves of a disk, also of one that is being made."""
        if not self.disk.exists():
            self.kills_in_making += 1
        elif lives.live([self.ckrt, "inspect", self.disk]).status:
            raise Failure(f"a kill leaves a part of {self.disk}")

    def into_file(self):
        """One life with its output in a file: whether it came to its end."""
        has_ended, printed = self.drive("--output", self.output)
        expect("what is printed beside the output", printed, b"")
        self.held = self.output.read_bytes() if self.output.exists() else b""
        return has_ended

    def into_pipe(self):
        """One life with its output in a pipe, behind what came out of the pipes before it: whether it came to its end."""
        has_ended, printed = self.drive("--from", str(len(self.held)))
        self.held += printed
        return has_ended

    def until_it_ends(self, live, wanted):
        """Gives lives of a kind until the guest has ended, and counts those that were killed.

        It raises Failure where the output isn't a beginning of the wanted one behind each, or isn't all of it at the end, where a disk
        in the making is left then, or where there is no end.
        """
        for kills in range(MOST_KILLS):
            has_ended = live(self)
            if not wanted.startswith(self.held) or (has_ended and self.held != wanted):
                raise Failure(f"{self.image.stem}: after {kills} kills the output is {self.held[-80:]!r} at its end")
            if has_ended:
                if (self.folder / "disk.making").exists():
                    raise Failure(f"{self.image.stem}: a disk in the making is left")
                return Counts(1, kills, self.kills_in_making)
        raise Failure(f"{self.image.stem} doesn't end")
