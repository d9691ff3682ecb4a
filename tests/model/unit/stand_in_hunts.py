"""A `ckrt hunt --races` or `--check` made of the model, to try the comparison with; and wrong ones, which it has to find.

What schedule a seed draws isn't compared, so here it is that of a drive by lots, but for whom a hart gets: the planned thread, since a hunt's
turns have no owners. What is looked for in runs is told by tallies that take one run after the other.
"""
from dataclasses import replace
from functools import lru_cache

from cases.glances import Glance
from model.checks import Checks
from model.cycle_texts import all_told, cycle_text
from model.devices import MemoryDisk
from model.events import Place, Run
from model.feeding import next_input, taken_by
from model.hunts import command_of, fold, line_of_kept, lines_of_table, rows_of_outcomes, said_of, shown_of, text_of_outcome, told_of
from model.layout import Geometry, format_disk
from model.listing import address_text
from model.plans import Options as Plan, next_event
from model.races import PAIRS, Races, Readings, text_of_access, text_of_pair
from model.session import Session
from model.stretches import Recording

JOURNAL, LONGEST_TURN, EVENTS_OF_A_COMMIT = 1 << 16, 60, 50


def next_of(seed, events, machine, data, taken):
    """The event that is due, or a word for why there is none."""
    given = None if data is None else next_input(data, taken, machine)
    event = given or next_event(Plan(turn=LONGEST_TURN, seed=seed), events, machine)
    return Place(event.hart, machine.planned(event.hart)) if isinstance(event, Place) else event


@lru_cache(maxsize=None)
def disk_of(seed, options, image, data):
    """The bytes of a disk with a seed's run, whole, as often as it is asked for."""
    disk = format_disk(Geometry(options.pages, options.harts, JOURNAL), image)
    session, taken, steps = Session(MemoryDisk(disk)), 0, 0
    while session.machine.is_running and max(steps, session.events) < options.steps:
        event = next_of(seed, session.events, session.machine, data, taken)
        if isinstance(event, str):
            break
        event = Run(event.hart, min(event.steps, options.steps - steps)) if isinstance(event, Run) else event
        reply = session.submit(event)[1]
        steps += int(reply.split()[3]) if isinstance(event, Run) else 0
        taken += taken_by([event])
        if session.events % EVENTS_OF_A_COMMIT == 0:
            session.commit()
            session.take_output()
    session.commit()
    return bytes(disk)


@lru_cache(maxsize=None)
def folded(disk):
    return fold(Recording(bytearray(disk)))


@lru_cache(maxsize=None)
def readings_of(disk):
    return Recording(bytearray(disk)).show(Readings())


def races_of(disk):
    return readings_of(disk).narrow


@lru_cache(maxsize=None)
def checks_of(disk):
    return Recording(bytearray(disk)).show(Checks())


@lru_cache(maxsize=None)
def lines_of_races(disk):
    """With what stands beneath each."""
    recording = Recording(bytearray(disk))
    return all_told(recording, recording.show(Readings()))[0]


class Row:
    def __init__(self, pair, seed):
        self.pair, self.seed, self.count = pair, seed, 0


class Tally:
    """Takes the races of one run after the other."""
    room, name, names, asked = PAIRS, "race", "races", "tally"

    def __init__(self):
        self.rows, self.runs, self.others = {}, 0, 0

    def key(self, pair):
        return frozenset([pair.first.place, pair.second.place])

    def found(self, races):
        return races.pairs

    def text(self, pair):
        return text_of_pair(pair)

    def take(self, seed, races):
        left = races.others
        for pair in self.found(races).values():
            if self.key(pair) not in self.rows and len(self.rows) == self.room:
                left += pair.count
            else:
                self.note(self.rows.setdefault(self.key(pair), Row(pair, seed)), seed, pair)
        self.runs += 1
        self.note_others(left)

    def note(self, row, seed, pair):
        row.count += 1

    def note_others(self, left):
        self.others += left > 0

    def ordered(self):
        return self.rows.values()

    def lines(self, options):
        lines = []
        for number, row in enumerate(self.ordered(), 1):
            lines += [f"{self.name} {number}: {row.count} of {self.runs} runs, first by seed {row.seed}: {self.text(row.pair)}",
                      f"    {command_of('image', row.seed, options)}"]
        lines += [f"other {self.names}: in {self.others} of {self.runs} runs"] if self.others else []
        return lines or [f"no {self.names} in {self.runs} runs; other schedules may have some"]


class CycleTally(Tally):
    """Takes the cycles of locks."""
    name, names, asked = "lock cycle", "lock cycles", "cycle_tally"

    def key(self, cycle):
        return len(cycle.orders), frozenset(order.taking.place for order in cycle.orders)

    def found(self, known):
        return known.cycles

    def text(self, cycle):
        return cycle_text(cycle)


class ErrorTally(Tally):
    """Takes the errors of memory."""
    name, names, asked = "error", "errors of memory", "error_tally"

    def key(self, wrong):
        done, _, place = wrong.text.partition(" pc ")
        return done.split()[0], place, wrong.back

    def found(self, checks):
        return checks.wrongs

    def text(self, wrong):
        return f"{wrong.line()}, x1 {address_text(wrong.back)}"


class Hunts:
    """Takes the places of `hunt` and of `glance_of_program`."""
    tally, cycle_tally, error_tally = Tally, CycleTally, ErrorTally

    def hunt(self, ckrt, folder, seeds, options, *more):
        data = (folder / options.input).read_bytes() if options.input else None
        disks = {seed: disk_of(seed, options, (folder / "image").read_bytes(), data) for seed in seeds}
        outcomes = {seed: text_of_outcome(folded(disk), options.steps, options.ignores_output) for seed, disk in disks.items()}
        races = self.races(disks, outcomes, options) if options.is_raced else self.errors(disks, options) if options.is_checked else []
        cycles = self.cycles(disks, options) if options.is_raced else []
        kept = self.keep(folder, more[-1], disks, outcomes) if more else []
        said = {seed: said_of(folded(disk)) for seed, disk in disks.items()}
        lines = self.arranged(lines_of_table("image", outcomes, self.told(options), said), races, cycles, kept)
        is_good = {outcome[:6] for outcome in outcomes.values()} == {"exit 0"}
        return 8 if len(set(outcomes.values())) > 1 or self.counts(races) or self.counts_cycles(cycles) else 0 if is_good else 9, lines

    def arranged(self, table, races, cycles, kept):
        return [*table, *races, *cycles, *kept]

    def told(self, options):
        return options

    def counts(self, races):
        """Whether these lines tell a race."""
        return len(races) > 1

    def counts_cycles(self, cycles):
        return len(cycles) > 1

    def cycles(self, disks, options):
        tally = self.cycle_tally()
        for seed, disk in disks.items():
            tally.take(seed, readings_of(disk).locks.known)
        return tally.lines(options)

    def errors(self, disks, options):
        tally = self.error_tally()
        for seed, disk in disks.items():
            tally.take(seed, checks_of(disk))
        return tally.lines(options)

    def found_in(self, disks, outcomes):
        return {seed: races_of(disk) for seed, disk in disks.items()}

    def races(self, disks, outcomes, options):
        tally = self.tally()
        for seed, races in self.found_in(disks, outcomes).items():
            tally.take(seed, races)
        return tally.lines(options)

    def kept_of(self, seed, disks):
        return disks[seed]

    def keep(self, folder, path, disks, outcomes):
        shown = shown_of(rows_of_outcomes(outcomes))
        seeds = [row.first for row in shown.values()] if path.endswith("/") else list(disks)[:1]
        paths = [f"{path}outcome-{number}.disk" for number in shown] if path.endswith("/") else [path]
        for seed, name in zip(seeds, paths):
            (folder / name).write_bytes(self.kept_of(seed, disks))
        return [self.line_of_kept(seed, name, folded(disks[seed]).switches) for seed, name in zip(seeds, paths)]

    def line_of_kept(self, seed, name, switches):
        return line_of_kept(seed, name, switches, None)

    def glance(self, ckrt, command, path, stretch):
        lines = checks_of(path.read_bytes()).lines() if command == "check" else lines_of_races(path.read_bytes())
        return Glance(0, "".join(line + "\n" for line in lines))


class Counts:
    """A run is counted as often as it was found there."""

    def note(self, row, seed, pair):
        row.count += pair.count


class LastSeed:
    def note(self, row, seed, pair):
        row.count, row.seed = row.count + 1, seed


class LastFound:
    """What the last run has there."""

    def note(self, row, seed, pair):
        row.count, row.pair = row.count + 1, pair


class ForgetsOthers:
    def note_others(self, left):
        pass


class Silent:
    """Nothing is told where there is nothing."""

    def lines(self, options):
        return super().lines(options) if self.rows else []


class BothWays(Tally):
    """A pair whose places come the other way round is another one."""

    def key(self, pair):
        return pair.first.place, pair.second.place


class MoreRoom(Tally):
    room = PAIRS + 1


class LessRoom(Tally):
    room = PAIRS - 1


class OthersByRaces(Tally):
    def note_others(self, left):
        self.others += left


class OwnPairsAlone(Tally):
    """What a run has beyond its own pairs isn't counted."""

    def take(self, seed, races):
        others, races.others = races.others, 0
        super().take(seed, races)
        races.others = others


class ByAddress(Tally):
    """The rows in the order of addresses."""

    def ordered(self):
        return sorted(self.rows.values(), key=lambda row: (row.pair.first.address, text_of_access(row.pair.first)))


class RunsWithRaces(Tally):
    """All runs are those that raced."""

    def take(self, seed, races):
        super().take(seed, races)
        self.runs -= not races.pairs


class StatusOfOutcomes(Hunts):
    def counts(self, races):
        return False


class FirstRuns(Hunts):
    """Of each outcome the first run alone is looked at."""

    def found_in(self, disks, outcomes):
        first = set({outcome: seed for seed, outcome in reversed(outcomes.items())}.values())
        return {seed: races_of(disk) if seed in first else Races(False) for seed, disk in disks.items()}


class SameDetector(Hunts):
    """What one run leaves is there in the next one."""

    def found_in(self, disks, outcomes):
        left, found = Readings(), {}
        for seed, disk in disks.items():
            narrow = Recording(bytearray(disk)).show(left).narrow
            found[seed] = Races(False)
            found[seed].pairs, found[seed].others = dict(narrow.pairs), narrow.others
        return found


class SameClocks(Hunts):
    """The pairs are new in each run, and the clocks and accesses aren't."""

    def found_in(self, disks, outcomes):
        left, found = Readings(), {}
        for seed, disk in disks.items():
            left.narrow.pairs, left.narrow.others = {}, 0
            Recording(bytearray(disk)).show(left)
            found[seed] = Races(False)
            found[seed].pairs, found[seed].others = left.narrow.pairs, left.narrow.others
        return found


class KeepsAnother(Hunts):
    """The run of another seed is kept where that is the first of several."""

    def kept_of(self, seed, disks):
        return list(disks.values())[-1]


class KeepsShorter(Hunts):
    def line_of_kept(self, seed, name, switches):
        return line_of_kept(seed, name, switches, switches)


class WithoutWord(Hunts):
    """The commands of outcomes don't ask for a look."""

    def told(self, options):
        return replace(options, is_raced=False, is_checked=False)


class RacesFirst(Hunts):
    def arranged(self, table, races, cycles, kept):
        return [*races, *table, *cycles, *kept]


class RacesLast(Hunts):
    def arranged(self, table, races, cycles, kept):
        return [*table, *cycles, *kept, *races]


class CyclesFirst(Hunts):
    """In front of the races."""

    def arranged(self, table, races, cycles, kept):
        return [*table, *cycles, *races, *kept]


class NoCycles(Hunts):
    def cycles(self, disks, options):
        return []


class StatusWithoutCycles(Hunts):
    def counts_cycles(self, cycles):
        return False


class CyclesByTheFirst(CycleTally):
    """Those are one that begin at the same place."""

    def key(self, cycle):
        return cycle.orders[0].taking.place


class CyclesInTurn(CycleTally):
    """The same places in another order make another one."""

    def key(self, cycle):
        return tuple(order.taking.place for order in cycle.orders)


class WithoutBack(ErrorTally):
    """Whatever register 1 has."""

    def key(self, wrong):
        return super().key(wrong)[:2]


class AtOnePlace(ErrorTally):
    """Whatever is wrong there."""

    def key(self, wrong):
        done, place, back = super().key(wrong)
        return done, place.split()[0], back


class LessRoomForErrors(ErrorTally):
    room = PAIRS - 1


class Unasked(Hunts):
    """Tells of races always."""

    def hunt(self, ckrt, folder, seeds, options, *more):
        status, lines = super().hunt(ckrt, folder, seeds, replace(options, is_raced=True), *more)
        return status, lines if options.is_raced else [line.replace(" --races", "") for line in lines]


class UnaskedStatus(Hunts):
    """Who doesn't ask for races gets the status of one who does."""

    def hunt(self, ckrt, folder, seeds, options, *more):
        status, lines = super().hunt(ckrt, folder, seeds, options, *more)
        asked = super().hunt(ckrt, folder, seeds, replace(options, is_raced=True))
        return asked[0], lines


class OfKeptRuns(Hunts):
    """Looks for races only where something is kept."""

    def hunt(self, ckrt, folder, seeds, options, *more):
        status, lines = super().hunt(ckrt, folder, seeds, options, *more)
        return status, lines if more else [line for line in lines if not line.startswith("race ")]


class ShorterInFolders(Hunts):
    def line_of_kept(self, seed, name, switches):
        return line_of_kept(seed, name, switches, switches if "/" in name else None)


class OtherEvents(Hunts):
    """The disk tells its races by other positions."""

    def glance(self, ckrt, command, path, stretch):
        glance = super().glance(ckrt, command, path, stretch)
        return Glance(0, glance.text.replace("+", "+1"))


def of(tally, wrong):
    """What is wrong of races and of cycles alike, of these."""
    return type(f"{wrong.__name__}Of{tally.__name__}", (wrong, tally), {})


def of_tally(wrong):
    return type(wrong.__name__, (Hunts,), {wrong.asked: wrong})


OF_BOTH = [Counts, LastSeed, LastFound, ForgetsOthers, Silent]
TALLIES = [*[of(tally, wrong) for tally in (Tally, CycleTally) for wrong in OF_BOTH], BothWays, MoreRoom, LessRoom, OthersByRaces, OwnPairsAlone, ByAddress,
           RunsWithRaces, CyclesByTheFirst, CyclesInTurn]
WRONG_CHECKS = [*map(of_tally, [*[of(ErrorTally, wrong) for wrong in OF_BOTH], WithoutBack, AtOnePlace, LessRoomForErrors]), StatusOfOutcomes, KeepsAnother,
                KeepsShorter, WithoutWord, RacesFirst, RacesLast, ShorterInFolders, OtherEvents]
WRONG_HUNTS = [*map(of_tally, TALLIES), CyclesFirst, NoCycles, StatusWithoutCycles, StatusOfOutcomes, FirstRuns, SameDetector, SameClocks, KeepsAnother,
               KeepsShorter, WithoutWord, RacesFirst, RacesLast, Unasked, UnaskedStatus, OfKeptRuns, ShorterInFolders, OtherEvents]
