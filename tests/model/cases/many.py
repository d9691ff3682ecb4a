"""Cases of hunts by many seeds: tables with three of many outputs and with each row, tables that are there already, those of parts that are joined, and
which of several seeds' runs is kept."""
import re
import subprocess
from dataclasses import dataclass
from pathlib import Path

from cases.hunted import TIME_LIMIT, Hunted, HuntsCase, hunt, kept_run
from cases.timed import KEPT
from model.abi import Call
from model.assembler import Label, Program, call_words, image_of
from model.hunts import Options, fold, is_chosen, known_lines, line_of_kept, lines_of_table, rows_of_outcomes, said_of, shown_of, status_of, text_of_outcome
from model.layout import MAGIC, MAKING, Geometry, format_disk
from model.stretches import Recording

JOIN = Path(__file__).resolve().parents[3] / "examples" / "cluster" / "join_hunts"
TABLE = "outcome 1: of another hunt\n"
TAKEN = {"nothing": None, "a table": TABLE, "an empty file": "", "a text": "something\n", "nearly a table": "outcome 1:\n", "a table later": "\n" + TABLE}
LEFT = [None, None, b"", bytes(8) + MAKING + bytes(5000), bytes(8) + MAGIC, bytes(format_disk(Geometry(16, 1, 4096), b""))]
ALONE = re.compile(r"drawn with (\d+)$")


class Letters:
    """Threads that put a letter or two each, some under locks that two of them take crosswise. Then the program comes to its end."""

    def __init__(self, chance):
        self.chance, self.program, threads = chance, Program(), chance.choice([2, 3, 4, 4])
        names = [f"thread {number}" for number in range(threads)]
        for name in names:
            self.program.add(call_words(Call.CREATE, Label(name), 0, 0, 0))
        for number in range(threads):
            self.program.add(call_words(Call.JOIN, 2 + number))
        self.program.add(call_words(Call.EXIT, chance.choice([0, 0, 0, 3])))
        has_locks = chance.random() < 0.4
        for number, name in enumerate(names):
            self.program.label(name)
            self.put(number, has_locks and number < 2)
            self.program.add(call_words(Call.THREAD_EXIT, 0))
        self.image = image_of(self.program.words())

    def put(self, number, is_locked):
        locks = [0x2000, 0x2004] if number else [0x2004, 0x2000]
        for lock in locks * is_locked:
            self.program.add(call_words(Call.MUTEX_LOCK, lock))
        for _ in range(self.chance.choice([1, 1, 2])):
            self.program.add(call_words(Call.PUTC, ord("a") + number))
        for lock in locks * is_locked:
            self.program.add(call_words(Call.MUTEX_UNLOCK, lock))


@dataclass
class ManyCase(HuntsCase):
    """What is at the path of the table before, and at that of the new one; and what was left of a disk in the making where one is kept, if anything."""
    taken: str
    taken_beside: str
    left: bytes | None


def many_case(chance, seed):
    options = Options(16, chance.choice([1, 1, 2]), chance.choice([500, 3000]), ignores_output=chance.random() < 0.15)
    first = chance.choice([1, 1, chance.randrange(100_000)])
    image = Letters(chance).image if chance.random() < 0.7 else Hunted(chance, False).image
    names = list(TAKEN)
    taken, beside = chance.choice([("nothing", "nothing"), ("a table", "nothing"), ("nothing", "a table"), (chance.choice(names), "nothing"),
                                   ("nothing", chance.choice(names))])
    return ManyCase(image, range(first, first + chance.choice([8, 14, 20])), options, None, taken, beside, chance.choice(LEFT))


@dataclass(frozen=True)
class Alone:
    """A seed's run that is kept by itself: what it comes to, its switches, those of the drawn one, and what it said."""
    outcome: str
    switches: int
    drawn: int
    said: str | None


def kept_alone(ckrt, case, folder):
    """That of each seed, and None or what is wrong with one."""
    alone = {}
    for seed in case.seeds:
        kept, difference = kept_run(ckrt, case, folder, seed)
        read = ALONE.search(kept.lines[-1]) if kept else None
        if read is None:
            return None, f"seed {seed}: {difference or kept.lines}"
        alone[seed] = Alone(kept.outcome, kept.folded.switches, int(read[1]), said_of(kept.folded))
    (folder / "kept").unlink()
    return alone, None


def known(case, lines):
    return known_lines(lines, case.options.ignores_output)


def difference_of_many(ckrt, case, folder, tally):
    """None, or where they differ."""
    (folder / "image").write_bytes(case.image)
    alone, difference = kept_alone(ckrt, case, folder)
    if difference:
        return difference
    outcomes, said = {seed: run.outcome for seed, run in alone.items()}, {seed: run.said for seed, run in alone.items()}
    rows, status = rows_of_outcomes(outcomes, said), status_of(outcomes.values())
    tally["hunt of many seeds", "outputs without lines" if len(shown_of(rows)) < len(rows) else "each row"] += 1
    for has_rows in (False, True):
        expected = status, known(case, lines_of_table("image", outcomes, case.options, said, has_rows))
        shown, lines = hunt(ckrt, folder, case.seeds, case.options, *["--rows"] * has_rows)
        if (shown, known(case, lines)) != expected:
            return f"table, --rows {has_rows}: model {expected}, program {shown, lines}"
        difference = (difference_of_table(ckrt, case, folder, (shown, lines), has_rows, tally)
                      or difference_of_kept(ckrt, case, folder, alone, (shown, lines), has_rows, tally))
        if difference:
            return f"--rows {has_rows}: {difference}"
    return difference_of_joined(ckrt, case, folder, tally) or difference_of_raced_table(ckrt, folder)


def put(path, text):
    if text is not None:
        path.write_text(text)


def is_replaced(text):
    """Only a table is, or nothing."""
    return text is None or text.startswith("outcome 1: ")


def difference_of_table(ckrt, case, folder, expected, has_rows, tally):
    """The hunt tells the same and goes on, whatever is at the path. Its table is there then, or what was, and why."""
    place = folder / "tables"
    place.mkdir()
    before = {"1.hunt": TAKEN[case.taken], "1.hunt.new": TAKEN[case.taken_beside]}
    for name, text in before.items():
        put(place / name, text)
    words = [ckrt, "hunt", "image", "--seeds", f"{case.seeds[0]}-{case.seeds[-1]}", *case.options.words().split(), *["--rows"] * has_rows]
    done = subprocess.run([*words, "--table", "tables/1.hunt"], cwd=folder, capture_output=True, timeout=TIME_LIMIT, text=True)
    is_written = all(map(is_replaced, before.values()))
    wanted = {"1.hunt": "".join(line + "\n" for line in expected[1])} if is_written else {name: text for name, text in before.items() if text is not None}
    there = {file.name: file.read_text() for file in place.iterdir()}
    for file in place.iterdir():
        file.unlink()
    place.rmdir()
    tally["table of a hunt", "written" if is_written else "refused"] += 1
    if (done.returncode, done.stdout.splitlines()) != expected or len(done.stderr.splitlines()) != (not is_written):
        return f"with --table ({before}): {done.returncode} {done.stdout[-300:]} {done.stderr}"
    return None if there == wanted else f"the table ({before}): {there}, model {wanted}"


def difference_of_kept(ckrt, case, folder, alone, expected, has_rows, tally):
    """By one path, a run that comes to what the first seed comes to; and in a folder one of each outcome that has a line."""
    rows = rows_of_outcomes({seed: run.outcome for seed, run in alone.items()})
    (folder / "folder").mkdir()
    first = next(row for row in rows if row.first == case.seeds[0])
    paths = {"kept": {"kept": first}, "folder/": {f"folder/outcome-{number}.disk": row for number, row in shown_of(rows, has_rows).items()}}
    difference = None
    for path, wanted in paths.items():
        if case.left is not None:
            (folder / (next(iter(wanted)) + ".making")).write_bytes(case.left)
        status, lines = hunt(ckrt, folder, case.seeds, case.options, *["--rows"] * has_rows, "--keep", path)
        told, table = lines[len(expected[1]):], lines[:len(expected[1])]
        difference = difference or (None if (status, table) == expected else f"with --keep {path}: {status} {lines}")
        difference = difference or difference_of_disks(case, folder, alone, wanted, told, tally)
    left = [file.name for file in folder.glob("*.making")] + [f"folder/{file.name}" for file in (folder / "folder").iterdir()]
    (folder / "kept").unlink(missing_ok=True)
    for file in [*folder.glob("*.making"), *(folder / "folder").iterdir()]:
        file.unlink()
    (folder / "folder").rmdir()
    return difference or (None if sorted(left) == sorted(paths["folder/"]) else f"{left} in the folder")


def difference_of_disks(case, folder, alone, wanted, told, tally):
    """Each line and its disk: a run of one of the first ten seeds of its outcome, with the fewest switches, or one that came last when tries ran out."""
    if len(told) != len(wanted):
        return f"kept {told}, model {list(wanted)}"
    for (path, row), line in zip(wanted.items(), told):
        read = KEPT.fullmatch(line)
        if read is None or read[2] is None:
            return f"no line of a disk: {line}"
        seed, among = int(read[1]), int(read[3] or 1)
        folded = fold(Recording(bytearray((folder / path).read_bytes())))
        text = text_of_outcome(folded, case.options.steps, case.options.ignores_output)
        seeds = {other: run.switches for other, run in alone.items() if run.outcome == row.text}
        tally["kept of many seeds", "the first" if seed == row.first else "another"] += 1
        if seed not in seeds or text != row.text or line != line_of_kept(seed, path, folded.switches, alone[seed].drawn, among):
            return f"{line}: model {text}, {folded.switches} switches"
        if not is_chosen(seed, folded.switches, among, seeds):
            return f"{line}: by themselves {seeds}"
    return None


def joined(folder, tables, *words):
    for number, (status, lines) in enumerate(tables):
        (folder / f"{number}.hunt").write_text("".join(line + "\n" for line in lines))
    names = [f"{number}.hunt" for number in range(len(tables))]
    done = subprocess.run([JOIN, *words, *names], cwd=folder, capture_output=True, timeout=TIME_LIMIT, text=True)
    for name in names:
        (folder / name).unlink()
    return done.returncode, done.stdout.splitlines()


def difference_of_joined(ckrt, case, folder, tally):
    """The tables of parts are that of the whole, with its status, where each has each row. One that hasn't is refused."""
    half = case.seeds[len(case.seeds) // 2]
    parts = [hunt(ckrt, folder, seeds, case.options, "--rows") for seeds in (range(case.seeds[0], half), range(half, case.seeds[-1] + 1))]
    for words in ([], ["--rows"]):
        shown, expected = joined(folder, parts, *words), hunt(ckrt, folder, case.seeds, case.options, *words)
        if shown != expected:
            return f"joined, {words}: {shown}, a hunt of all {expected}"
    short = hunt(ckrt, folder, case.seeds, case.options)
    if any(line.startswith("outputs of exit 0: ") for line in short[1]):
        tally["joined hunts", "refused"] += 1
        shown = joined(folder, [short])
        return None if shown[0] not in (0, 8, 9) and not shown[1] else f"joined without rows: {shown}"
    return None


def difference_of_raced_table(ckrt, folder):
    """With races there is none; nothing is opened."""
    words = [ckrt, "hunt", "missing", "--seeds", "1-1", "--races", "--table", "raced.hunt"]
    done = subprocess.run(words, cwd=folder, capture_output=True, timeout=TIME_LIMIT, text=True)
    shown = done.returncode, done.stdout, done.stderr.splitlines()[-1:], (folder / "raced.hunt").exists()
    return None if shown == (1, "", ["ckrt: Range"], False) else f"--races --table: {shown}"
