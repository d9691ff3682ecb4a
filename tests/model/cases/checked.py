"""Cases of `ckrt hunt --check`: as those that look for races, with the errors of memory of each seed's run; and words that are refused."""
import subprocess
from dataclasses import dataclass, replace
from itertools import product, takewhile
from random import Random

from cases.glances import glance_of_lines, glance_of_program, place_of_difference
from cases.heaped import READINGS, Heaped, kind_of_line
from cases.hunted import TIME_LIMIT, hunts_case
from cases.raced import RacedCase, difference_of_raced, difference_of_tables, table_of
from model.assembler import load_number
from model.checks import Checks
from model.hunts import status_of
from model.race_rows import ERRORS, lines_of_found

USES = 6  # of a piece
ROWS = (ERRORS, replace(ERRORS, found=Checks.errors))  # whether a run that doesn't tell which memory is no block's has errors, the pages leave open
LEAST = 1 << 20  # bytes of memory for a shadow
LOOKS = [["--check"], ["--races"], ["--check", "--races"], []]
MEMORY = [None, None, LEAST, LEAST, LEAST - 1, 0]


class Strewn(Heaped):
    """Threads that use blocks at many places each: so there are more errors than have lines, and others by other schedules."""

    def piece(self):
        back = load_number(1, self.code()) if self.chance.random() < 0.5 else []
        return [*back, *(word for _ in range(USES) for word in self.used()), *self.seen()]


@dataclass
class CheckedCase(RacedCase):
    """The options ask for errors of memory. `look_words` and `memory` are what a hunt is given that may be refused, and whether it has a table."""
    look_words: list
    memory: int | None
    has_table: bool
    more = "--memory", str(LEAST)  # room for more parts than these guests have

    def look(self, recording):
        return [recording.show(Checks((), *reading)) for reading in READINGS]

    def difference_of_told(self, shown, runs, kept=()):
        differences = [difference_of_tables(shown, table, kept) for table in tables_of_errors(runs, self.options)]
        return None if None in differences else differences[0]

    def difference_of_glance(self, ckrt, disk, recording, readings):
        """The disk has the very errors that are told of its seed."""
        told, got = [lines_of_errors(checks.lines()) for checks in readings], glance_of_program(ckrt, "check", disk, (None, None))
        there = lines_of_errors(got.text.splitlines())
        is_right = not got.status and there in told
        return None if is_right else f"errors of its disk: {place_of_difference(glance_of_lines(told[0]), glance_of_lines(there))}"

    def tell_kinds(self, runs, tally):
        lines = tables_of_errors(runs, self.options)[0][1]
        tally.update(("error of a hunt", kind_of_error(line)) for line in lines if line.startswith(("error ", "other errors", "no errors")))

    def fault(self):
        """That of a hunt of no image with such words: those that are refused are so before anything is opened."""
        is_wrong = len(self.look_words) > 1 or self.has_table and self.look_words or self.memory is not None and (not self.look_words or self.memory < LEAST)
        return "Range" if is_wrong else "File"


def lines_of_errors(lines):
    """Without the blocks that weren't given back, and the values that were never stored."""
    return list(takewhile(lambda line: not line.startswith("never given back") and "by a value that was never stored" not in line, lines))


def kind_of_error(line):
    """What is done and what is wrong with it, or the first words of another line."""
    told = line.rpartition(", x1 ")[0].partition(": ")[2].partition(": ")[2]
    return kind_of_line(told) if told else " ".join(line.split(" ")[:2])


def checked_case(chance, seed):
    case = hunts_case(chance, seed)
    guest = chance.choice([Heaped, Strewn, Strewn])(chance)
    image = case.image if chance.random() < 0.1 else guest.image
    words = Random(f"words {seed}")
    return CheckedCase(image, case.seeds, replace(case.options, is_checked=True), case.input, words.choice(LOOKS), words.choice(MEMORY), words.random() < 0.3)


def tables_of_errors(runs, options):
    """The status and the lines that a hunt of these runs tells, by each reading of what is an error."""
    told, outcomes = [], [run.outcome for run in runs.values()]
    for number, rows in product(range(len(READINGS)), ROWS):
        found = {seed: run.readings[number] for seed, run in runs.items()}
        lines = [*table_of(runs, options), *lines_of_found("image", found, options, rows)]
        told.append((status_of(outcomes, map(rows.found, found.values())), lines))
    return told


def difference_of_refused(ckrt, case, folder, tally):
    """There is no such image. Nothing is left."""
    words = [*case.look_words, *([] if case.memory is None else ["--memory", str(case.memory)]), *["--table", "table"] * case.has_table]
    done = subprocess.run([ckrt, "hunt", "missing", *words], cwd=folder, capture_output=True, timeout=TIME_LIMIT, text=True)
    expected, shown = f"ckrt: {case.fault()}", "".join(done.stderr.splitlines()[-1:])
    tally["words of a look", case.fault()] += 1
    is_right = (done.returncode, done.stdout, shown) == (1, "", expected) and not (folder / "table").exists()
    return None if is_right else f"{words}: model {expected}, program {done.returncode} {shown}"


def difference_of_checked(ckrt, case, folder, tally):
    return difference_of_raced(ckrt, case, folder, tally) or difference_of_refused(ckrt, case, folder, tally)
