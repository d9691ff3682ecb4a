"""The rows of races and of cycles of locks in a table of `ckrt hunt --races`, and of errors in one of `ckrt hunt --check`: those of some runs; and of
the former read back, what has to hold of them whatever runs there were."""
import re
from dataclasses import dataclass
from typing import Callable

from model.cycle_texts import cycle_text
from model.hunts import command_of
from model.listing import address_text
from model.races import PAIRS, text_of_pair

ADDRESS = "([0-9a-f]{8})"
ACCESS = rf"\d+\+\d+ thread \d+ (?:stores|loads)(?: atomically)? [0-9a-f]{{8}} pc {ADDRESS}"
PAIR = re.compile(f"{ACCESS}, {ACCESS}")
TAKING = rf"\d+\+\d+ thread \d+ takes (?:mutex [0-9a-f]{{8}}|rwlock [0-9a-f]{{8}} to (?:read|write)) pc {ADDRESS} from {ADDRESS}"
CYCLE = re.compile(rf"((?:{TAKING}, ){{2,8}})a cycle of (\d)")


@dataclass(frozen=True)
class Rows:
    """What rows are about, by its name for one and for many: of a run those that are found, by their places; the text of one, and the places of a
    text, None where it is none; and places as they are in a text."""
    one: str
    many: str
    found: Callable
    text: Callable
    places: Callable | None = None
    key: Callable | None = None


def places_of_pair(text):
    pair = PAIR.fullmatch(text)
    return frozenset(pair.groups()) if pair else None


def places_of_cycle(text):
    cycle = CYCLE.fullmatch(text)
    places = re.findall(TAKING, cycle[1]) if cycle else []
    return (len(places), frozenset(places)) if cycle and len(places) == int(cycle[4]) else None


def key_of_cycle(places):
    count, there = places
    return count, frozenset(tuple(f"{address:08x}" for address in place) for place in there)


RACES = Rows("race", "races", lambda races: races.pairs, text_of_pair, places_of_pair, lambda places: frozenset(f"{place:08x}" for place in places))
CYCLES = Rows("lock cycle", "lock cycles", lambda known: known.cycles, cycle_text, places_of_cycle, key_of_cycle)
ERRORS = Rows("error", "errors of memory", lambda checks: checks.wrongs, lambda wrong: f"{wrong.line()}, x1 {address_text(wrong.back)}")


def lines_of_found(image, found, options, rows=RACES):
    """Of what is found by seed, in the order of the seeds: what is at the same places once, with how many runs have it, as it was in the
    first one. Other runs are counted where they have some that has no line, or more than is kept of a run."""
    first, lines = {}, []
    for seed, run in found.items():
        for places, one in rows.found(run).items():
            first.setdefault(places, (seed, one))
    told = dict(list(first.items())[:PAIRS])
    for number, (places, (seed, one)) in enumerate(told.items(), 1):
        count = sum(places in rows.found(run) for run in found.values())
        lines += [f"{rows.one} {number}: {count} of {len(found)} runs, first by seed {seed}: {rows.text(one)}",
                  f"    {command_of(image, seed, options)}"]
    left = sum(bool(run.others) or not rows.found(run).keys() <= told.keys() for run in found.values())
    lines += [f"other {rows.many}: in {left} of {len(found)} runs"] if left else []
    return lines or [f"no {rows.many} in {len(found)} runs; other schedules may have some"]


@dataclass(frozen=True)
class Row:
    """How many runs have what is at these places, by which seed first, and that one's text."""
    count: int
    first: int
    text: str
    places: object


def split_table(lines):
    """The lines of outcomes, those of races, and those of cycles of locks."""
    parts = []
    for rows in (CYCLES, RACES):
        begin = next((place for place, line in enumerate(lines) if line.startswith((f"{rows.one} 1: ", f"no {rows.many} in "))), len(lines))
        lines, parts = lines[:begin], [lines[begin:], *parts]
    return lines, *parts


def rows_of_found(lines, options, total, rows=RACES):
    """What the lines tell of so many runs; None where they are no such rows: each has a number, a count, a seed that isn't earlier than the
    one before, other places, and its command. Only behind as many as may be there is a line of other runs."""
    if lines == [f"no {rows.many} in {total} runs; other schedules may have some"]:
        return []
    last = re.fullmatch(rf"other {rows.many}: in (\d+) of (\d+) runs", lines[-1]) if lines[2 * PAIRS:] else None
    lines, there = lines[:-1] if last else lines, []
    for number, (told, command) in enumerate(zip(lines[::2], lines[1::2]), 1):
        read = re.fullmatch(rf"{rows.one} (\d+): (\d+) of (\d+) runs, first by seed (\d+): (.+)", told)
        places = read and rows.places(read[5])
        if places is None or (int(read[1]), int(read[3])) != (number, total):
            return None
        there.append(Row(int(read[2]), int(read[4]), read[5], places))
        if command != "    " + command_of("image", there[-1].first, options):
            return None
    firsts, counts = [row.first for row in there], [row.count for row in there] + ([int(last[1])] if last else [])
    is_whole = len(lines) == 2 * len(there) and 1 <= len(there) <= PAIRS and (last is None or int(last[2]) == total)
    is_counted = all(1 <= count <= total for count in counts) and len({row.places for row in there}) == len(there)
    return there if is_whole and is_counted and sorted(firsts) == firsts else None


def difference_of_found(there, seed, readings):
    """None, or what the rows of races and of cycles tell else than a seed's run has, of which some are. Races that the page leaves open aren't compared."""
    is_open = readings.lines() is None
    races = None if is_open else difference_of_rows(there[0], seed, readings.narrow, RACES)
    return races or difference_of_rows(there[1], seed, readings.locks.known, CYCLES)


def difference_of_rows(there, seed, run, rows):
    """Of one of the two."""
    known = {row.places: row for row in there}
    found = {rows.key(places): rows.text(one) for places, one in rows.found(run).items()}
    missed = [text for places, text in found.items() if places not in known and len(there) < PAIRS]
    late = [known[places] for places in found if places in known and known[places].first > seed]
    told = [row.text for row in there if row.first == seed]
    new = [text for places, text in found.items() if places in known and known[places].first == seed]
    return None if not missed and not late and told == new else f"seed {seed}: without a row {missed}, later {late}, model {new}, program {told}"
