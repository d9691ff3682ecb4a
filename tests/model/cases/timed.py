"""Cases of hunts by time: the table is that of the seeds that were run, lines of progress fit it, and what is kept comes to its outcomes, and
has its races."""
import re
import subprocess
import time
from collections import Counter
from dataclasses import dataclass, replace
from random import Random

from cases.hunted import TIME_LIMIT, Hunted
from model.hunts import (MOST_OUTCOMES, MOST_SEEDS, SAID, Options, Row, command_of, fold, kind_of, line_of_kept, lines_of_rows, said_of,
                         shown_of, status_of, text_of_outcome, told_of)
from model.race_rows import CYCLES, difference_of_found, rows_of_found, split_table
from model.races import Readings
from model.stretches import Recording

SECONDS = 1
LONGEST = 31_536_000
REFUSED = [("1-2", 1, None), (None, 0, None), (None, LONGEST + 1, None), (None, None, 0), (None, 1, 0), ("3-2", None, None), ("3-2", None, 1)]
OUTCOME = re.compile(r"outcome (\d+): (\d+) of (\d+) runs, first by seed (\d+): (.+)")
KEPT = re.compile(r"kept: the run of seed (\d+) on \S+, switches: \d+, (?:as it was drawn|drawn with (\d+)(?:, fewest of (\d+) seeds)?)")
OTHERS = re.compile(r"other outcomes: (\d+) of (\d+) runs")
PROGRESS = re.compile(r"progress: (\d+) runs, seed (\d+), (\d+) runs a second, outcomes: (\d+)")


@dataclass
class TimedCase:
    """`keep` is where runs are kept, or none; the shift is how far behind seed 1 a hunt of as many seeds begins. `has_rows` tells whether the hunt by
    time has a line for each outcome that is told apart."""
    image: bytes
    options: Options
    keep: str | None
    shift: int
    refused: tuple  # seeds, seconds and progress, of which some aren't in range
    has_rows: bool = True

    def disk(self):
        """None is given."""
        return b""


def timed_case(chance, seed):
    options = Options(chance.choice([16, 17]), chance.choice([1, 2]), chance.choice([500, 3000]))
    case = TimedCase(Hunted(chance, False).image, options, chance.choice([None, "kept", "folder/", "folder/"]), chance.choice([0, 0, 500]), chance.choice(REFUSED))
    case.options = replace(options, is_raced=chance.random() < 0.5, ignores_output=chance.random() < 0.3)
    case.has_rows = Random(f"rows {seed}").random() < 0.4
    return case


def outcomes_of(lines, options):
    """What a table tells, with the number of all runs; None where it is none: each outcome has a number, a count, a seed, another text, maybe what
    was said right below, and its command, and they come by kinds, each by a later seed than the one of its kind before. Only behind as many as may be of one kind there is
    a line of all others."""
    said = {above: line.removeprefix(SAID) for above, line in zip(lines, lines[1:]) if line.startswith(SAID)}
    lines = [line for line in lines if not line.startswith(SAID)]
    found, total, last = [], None, OTHERS.fullmatch(lines[-1]) if lines[2 * MOST_OUTCOMES:] else None
    lines = lines[:-1] if last else lines
    for number, (told, command) in enumerate(zip(lines[::2], lines[1::2]), 1):
        read = OUTCOME.fullmatch(told)
        if read is None or int(read[1]) != number or total not in (None, int(read[3])):
            return None
        found.append(Row(int(read[2]), int(read[4]), read[5], said.pop(told, None)))
        total = int(read[3])
        if command != "    " + command_of("image", found[-1].first, options):
            return None
    firsts, texts = [one.first for one in found], [one.text for one in found]
    is_full = MOST_OUTCOMES in Counter(kind_of(text) for text in texts).values()
    others = [int(last[1])] if last and is_full and int(last[2]) == total else []
    is_whole = len(lines) == 2 * len(found) and sum([one.count for one in found] + others) == total
    is_ordered = len(set(firsts)) == len(firsts) and told_of(dict(zip(texts, firsts))) == texts
    return (found, total) if is_whole and is_ordered and not said else None


def rows_of(table, options):
    """The outcomes of a table, the number of all runs, and its rows of races and of cycles of locks, where these are asked for; None where it is none."""
    lines, races, cycles = split_table(table) if options.is_raced else (table, [], [])
    read = outcomes_of(lines, options)
    rows = [rows_of_found(races, options, read[1]), rows_of_found(cycles, options, read[1], CYCLES)] if read and options.is_raced else [[], []]
    return None if read is None or None in rows else (*read, rows)


def difference_of_progress(lines, found, first, total, seconds):
    """None, or a line that doesn't fit the outcomes of a hunt from its first seed on, which took so many seconds. An outcome counts
    also where the table has no lines for it."""
    runs = 0
    for line in lines:
        read = PROGRESS.fullmatch(line)
        if read is None:
            return f"no line of progress: {line}"
        before, runs, seed, rate, outcomes = runs, *map(int, read.groups())
        known = sum(one.first <= seed for one in found)
        if not before < runs <= total or seed != first - 1 + runs or outcomes != known or rate > runs - before:
            return f"{line}: {before} runs before it, {known} outcomes by then, {total} runs in all"
    return None if len(lines) <= seconds else f"{len(lines)} lines of progress in {seconds:.1f} seconds"


def run_hunt(ckrt, case, folder, *words):
    """The status, the lines on standard output and on standard error, and the seconds that it took."""
    began = time.monotonic()
    command = [ckrt, "hunt", "image", *words, *case.options.words().split()]
    done = subprocess.run(command, cwd=folder, capture_output=True, timeout=TIME_LIMIT, text=True)
    return done.returncode, done.stdout.splitlines(), done.stderr.splitlines(), time.monotonic() - began


def difference_of_refused(ckrt, case, folder):
    """There is no such image, which nobody is told."""
    words = [word for name, value in zip(("--seeds", "--seconds", "--progress"), case.refused) if value is not None for word in (name, str(value))]
    done = subprocess.run([ckrt, "hunt", "missing", *words], cwd=folder, capture_output=True, timeout=TIME_LIMIT, text=True)
    expected, shown = f"ckrt: {fault_of_options(*case.refused)}", "".join(done.stderr.splitlines()[-1:])
    return None if (done.returncode, done.stdout, shown) == (1, "", expected) else f"{words}: model {expected}, program {done.returncode} {shown}"


def difference_of_timed(ckrt, case, folder, tally):
    (folder / "image").write_bytes(case.image)
    kept = folder / (case.keep or "kept").rstrip("/")
    empty(kept)
    if case.keep == "folder/":
        kept.mkdir(exist_ok=True)
    words = ["--seconds", str(SECONDS), "--progress", "1", *["--rows"] * case.has_rows, *(["--keep", case.keep] if case.keep else [])]
    status, lines, errors, took = run_hunt(ckrt, case, folder, *words)
    table = [line for line in lines if not line.startswith("kept: ")]
    whole = table if case.has_rows else with_rows(ckrt, case, folder, table)
    read = rows_of(whole, case.options)
    if read is None:
        return f"no table: {whole[:6]}"
    found, total, (races, cycles) = read
    told = [line for part in split_table(whole)[1:] for line in part] if case.options.is_raced else []
    wanted = [*lines_of_rows("image", found, total, case.options, case.has_rows), *told]
    tally["hunt by time", "outputs without lines"] += len(found) - len(shown_of(found, case.has_rows))
    if table != wanted:
        return f"table: model {wanted}, program {table}"
    tally["hunt by time", "several" if len(found) > 1 else "one outcome"] += 1
    tally["hunt by time", "line of progress"] += len(errors)
    tally["hunt by time", "row of a race"] += len(races)
    tally["hunt by time", "row of a cycle of locks"] += len(cycles)
    if took < SECONDS or status != status_of([one.text for one in found], [races, cycles]):
        return f"{took:.2f} seconds, status {status} with {len(found)} outcomes, {len(races)} races and {len(cycles)} cycles of locks"
    def text_of(seed):
        return outcomes_of(run_hunt(ckrt, case, folder, "--seeds", f"{seed}-{seed}")[1], case.options)[0][0].text if not case.options.is_raced else None

    return (difference_of_refused(ckrt, case, folder) or difference_of_progress(errors, found, 1, total, took)
            or difference_of_disks(case, kept, found, (races, cycles), lines[len(table):], text_of)
            or difference_of_range(ckrt, case, folder, (status, table), total))


def with_rows(ckrt, case, folder, table):
    """The table of the same seeds with each row."""
    read = OUTCOME.fullmatch("".join(table[:1]))
    return run_hunt(ckrt, case, folder, "--seeds", f"1-{read[3]}", "--rows")[1] if read else table


def difference_of_disks(case, kept, found, rows, told, text_of=None):
    """What is kept: a run that comes to what the first seed comes to, or one of each outcome that has a line; where races are asked for the first
    seed's as it was drawn, with its races and cycles of locks. The outcome of another seed is looked at too. The disks are taken away."""
    if case.keep is None:
        return None if not told else f"nothing is kept: {told}"
    is_folder = case.keep.endswith("/")
    wanted = [(one, kept / f"outcome-{number}.disk") for number, one in shown_of(found, case.has_rows).items()]
    wanted = wanted if is_folder else [(min(found, key=lambda one: one.first), kept)]
    names = [f"{case.keep}{path.name}" if is_folder else case.keep for _, path in wanted]
    if len(told) != len(wanted) or is_folder and len(list(kept.iterdir())) != len(wanted):
        return f"{len(wanted)} disks of the model, kept {told}"
    for (one, path), name, line in zip(wanted, names, told):
        recording = Recording(bytearray(path.read_bytes()))
        folded, read = fold(recording), KEPT.fullmatch(line)
        if read is None or (read[2] is None) != case.options.is_raced:
            return f"no line of such a disk: {line}"
        seed, drawn, among = int(read[1]), read[2], int(read[3] or 1)
        difference = difference_of_found(rows, one.first, recording.show(Readings())) if case.options.is_raced else None
        if difference:
            return f"races on {path.name}: {difference}"
        text = text_of_outcome(folded, case.options.steps, case.options.ignores_output)
        is_among = seed == one.first if among == 1 else one.first <= seed and among <= min(MOST_SEEDS, one.count)
        if text != one.text or line != line_of_kept(seed, name, folded.switches, drawn, among) or not is_among:
            return f"{line}: model {text}, {folded.switches} switches"
        if seed != one.first and text_of(seed) != one.text:
            return f"{line}: that seed comes to {text_of(seed)}"
        is_known = case.options.is_raced or one.text.startswith("exit ") and not case.options.ignores_output
        if is_known and said_of(folded) != one.said:
            return f"{line}: said by the model {said_of(folded)!r}, told {one.said!r}"
    empty(kept)
    return None


def empty(kept):
    for file in kept.iterdir() if kept.is_dir() else [kept]:
        file.unlink(missing_ok=True)
    if kept.is_dir():
        kept.rmdir()


def difference_of_range(ckrt, case, folder, expected, total):
    """The table is that of just these seeds; and a range that begins later tells its own seeds."""
    rows = ["--rows"] * case.has_rows
    status, table, errors, took = run_hunt(ckrt, case, folder, "--seeds", f"1-{total}", *rows)
    if (status, table) != expected or errors:
        return f"a hunt of seeds 1-{total}: {status} {table} {errors}, by time {expected}"
    if not case.shift:
        return None
    first = 1 + case.shift
    _, table, errors, took = run_hunt(ckrt, case, folder, "--seeds", f"{first}-{first + total - 1}", "--progress", "1", "--rows")
    read = rows_of(table, case.options)
    return difference_of_progress(errors, read[0], first, total, took) if read and read[1] == total else f"no table: {table[:6]}"


def fault_of_options(seeds, seconds, progress):
    """The name of the fault that the words have, before anything is opened, or None."""
    is_turned = seeds is not None and int(seeds.split("-")[0]) > int(seeds.split("-")[1])
    is_wrong = is_turned or (seconds is not None and not 1 <= seconds <= LONGEST) or seeds is not None and seconds is not None or progress == 0
    return "Range" if is_wrong else None
