"""Cases of `ckrt hunt --races`: each seed's run is kept as it was drawn, and its disk has the races that are told; then the tables of all
seeds, with races and without, and a disk for each outcome."""
from dataclasses import dataclass, replace
from random import Random

from cases.glances import glance_of_lines, glance_of_program, kind_of_race
from cases.hunted import HuntsCase, hunt, hunts_case, kept_run
from cases.lockers import Locker
from model.abi import Call
from model.assembler import Label, Program, call_words, image_of, immediate_form, load_number, store_form
from model.cycle_texts import all_told
from model.hunts import line_of_kept, lines_of_table, rows_of_outcomes, said_of, shown_of, status_of
from model.race_rows import CYCLES, lines_of_found
from model.races import Readings

WORDS, MUTEX = 0x2800, 0x2000
ROWS = "race ", "other races", "no races", "lock cycle ", "other lock cycles", "no lock cycles"
SHORTEST_PIECE, LONGEST_PIECE = 5, 40  # in words, without a lock between


class Crossing:
    """Threads that go over many words, each in an order and by instructions of its own: two words that two of them access make a pair of
    places, unless a lock that lies between orders them. So there are more pairs than have lines, and others by other schedules."""

    def __init__(self, chance):
        self.chance, self.program = chance, Program()
        self.words = chance.choice([20, 70, 80, 100])
        self.store_share = chance.choice([0.5, 0.9, 1])
        names = [f"thread {number}" for number in range(chance.choice([2, 2, 3]))]
        for name in names:
            self.program.add(call_words(Call.CREATE, Label(name), 0, 0, 0))
        self.program.add(chance.choice([call_words(Call.THREAD_EXIT, 0), call_words(Call.JOIN, 2) + call_words(Call.EXIT, 0)]))
        for name in names:
            self.program.label(name)
            self.program.add(load_number(3, WORDS))
            self.cross()
        self.image = image_of(self.program.words())

    def cross(self):
        words = self.chance.sample(range(self.words), self.words)
        while words:
            length = self.chance.randint(SHORTEST_PIECE, LONGEST_PIECE)
            piece, words = words[:length], words[length:]
            self.program.add([self.access(4 * word) for word in piece])
            self.program.add(call_words(Call.MUTEX_LOCK, MUTEX) + call_words(Call.MUTEX_UNLOCK, MUTEX))
        self.program.add(call_words(Call.THREAD_EXIT, 0))

    def access(self, offset):
        is_store = self.chance.random() < self.store_share
        return store_form(2, 4, offset, 3) if is_store else immediate_form(0x03, 2, 4, 3, offset)


@dataclass
class RacedCase(HuntsCase):
    """The options ask for races. `more` are words that change nothing, and that no command repeats."""
    more = ()

    def look(self, recording):
        """What is looked for in a run, by each reading."""
        return recording.show(Readings())

    def difference_of_told(self, shown, runs, kept=()):
        return difference_of_told(shown, runs, self.options, kept)

    def difference_of_glance(self, ckrt, disk, recording, readings):
        return difference_of_glance(ckrt, disk, recording, readings)

    def tell_kinds(self, runs, tally):
        narrow, wide = tables_of(runs, self.options)
        tally["hunt for races", "shown" if narrow == wide else "left open"] += 1
        tally.update(("race of a hunt", kind_of_race(line)) for line in narrow[1] if line.startswith(ROWS))


def raced_case(chance, seed):
    case = hunts_case(chance, seed)
    image = Crossing(chance).image if chance.random() < 0.4 else case.image
    others = Random(f"waits {seed}")
    if others.random() < 0.3:
        image = Locker(others, others.choice(["drawn", "drawn", "ring", "places"])).image
    return RacedCase(image, case.seeds, replace(case.options, is_raced=True), case.input)


@dataclass
class Run:
    """A seed's run as it was drawn: what it comes to, its switches, what is looked for in it by each reading, the bytes of its disk, and what it said."""
    outcome: str
    switches: int
    readings: object
    disk: bytes
    said: str | None = None


def table_of(runs, options):
    """The lines of their outcomes."""
    outcomes = {seed: run.outcome for seed, run in runs.items()}
    return lines_of_table("image", outcomes, options, {seed: run.said for seed, run in runs.items()})


def tables_of(runs, options):
    """The status and the lines that a hunt of these runs tells, by each reading of their races."""
    outcomes, cycles = [run.outcome for run in runs.values()], [run.readings.locks.known.cycles for run in runs.values()]
    told = []
    for races in ({seed: run.readings.narrow for seed, run in runs.items()}, {seed: run.readings.wide for seed, run in runs.items()}):
        lines = [*table_of(runs, options), *lines_of_found("image", races, options), *lines_of_cycles(runs, options)]
        told.append((status_of(outcomes, [*(one.pairs for one in races.values()), *cycles]), lines))
    return told


def lines_of_cycles(runs, options):
    return lines_of_found("image", {seed: run.readings.locks.known for seed, run in runs.items()}, options, CYCLES)


def difference_of_told(shown, runs, options, kept=()):
    """None, or where the two differ; where the page leaves races open all other lines are compared."""
    narrow, wide = tables_of(runs, options)
    status, lines = shown
    if narrow != wide:
        wanted, last = table_of(runs, options), [*lines_of_cycles(runs, options), *kept]
        return None if lines[:len(wanted)] == wanted and lines[-len(last):] == last else f"model {wanted}, {last}, program {lines}"
    return difference_of_tables(shown, narrow, kept)


def difference_of_tables(shown, table, kept):
    wanted, (status, lines) = [*table[1], *kept], shown
    if (status, lines) == (table[0], wanted):
        return None
    unlike = next((pair for pair in zip(wanted, lines) if pair[0] != pair[1]), (f"{len(wanted)} lines", f"{len(lines)} lines"))
    return f"model {table[0]} {unlike[0]!r}, program {status} {unlike[1]!r}"


def difference_of_glance(ckrt, disk, recording, readings):
    """The disk has the very races that are told of its seed, with what stands beneath them."""
    if readings.lines() is None:
        return None
    told, got = all_told(recording, readings), glance_of_program(ckrt, "races", disk, (None, None))
    return None if got in map(glance_of_lines, told) else f"races of its disk: model {told[0]}, program {got}"


def difference_of_drawn(ckrt, case, folder, seed):
    """The run of a seed by the disk that is kept, and None or where that and what is told differ."""
    kept, difference = kept_run(ckrt, case, folder, seed)
    if difference:
        return None, difference
    disk = folder / "kept"
    run = Run(kept.outcome, kept.folded.switches, case.look(kept.recording), disk.read_bytes(), said_of(kept.folded))
    told = [line_of_kept(seed, "kept", run.switches, None)]
    return run, case.difference_of_told((kept.status, kept.lines), {seed: run}, told) or case.difference_of_glance(ckrt, disk, kept.recording, run.readings)


def difference_of_folder(ckrt, case, folder, runs):
    """Each outcome gets a disk, with the drawn run of the first seed that came to it. The folder is taken away."""
    shown = shown_of(rows_of_outcomes({seed: run.outcome for seed, run in runs.items()}))
    wanted = {f"folder/outcome-{number}.disk": row.first for number, row in shown.items()}
    (folder / "folder").mkdir()
    told = [line_of_kept(seed, path, runs[seed].switches, None) for path, seed in wanted.items()]
    difference = case.difference_of_told(hunt(ckrt, folder, case.seeds, case.options, *case.more, "--keep", "folder/"), runs, told)
    there = {f"folder/{file.name}": file.read_bytes() for file in (folder / "folder").iterdir()}
    for file in (folder / "folder").iterdir():
        file.unlink()
    (folder / "folder").rmdir()
    is_right = there == {path: runs[seed].disk for path, seed in wanted.items()}
    return difference or (None if is_right else f"disks of outcomes: {sorted(there)}")


def difference_of_raced(ckrt, case, folder, tally):
    """None, or where they differ: by each kept disk, in the tables of all seeds, or in the disks of outcomes."""
    (folder / "image").write_bytes(case.image)
    if case.input is not None:
        (folder / "input").write_bytes(case.input)
    runs = {}
    for seed in case.seeds:
        runs[seed], difference = difference_of_drawn(ckrt, case, folder, seed)
        if difference:
            return f"seed {seed}: {difference}"
    case.tell_kinds(runs, tally)
    difference = case.difference_of_told(hunt(ckrt, folder, case.seeds, case.options), runs) or difference_of_folder(ckrt, case, folder, runs)
    if difference:
        return f"table: {difference}"
    return difference_of_plain(ckrt, case, folder, runs)


def difference_of_plain(ckrt, case, folder, runs):
    """Who doesn't ask for a look gets the same outcomes."""
    options = replace(case.options, is_raced=False, is_checked=False)
    expected = status_of([run.outcome for run in runs.values()]), table_of(runs, options)
    shown = hunt(ckrt, folder, case.seeds, options)
    return None if shown == expected else f"unasked: model {expected}, program {shown}"
