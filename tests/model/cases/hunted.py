"""Cases of `ckrt hunt`: guests whose threads mostly end or stand still, and seeds; each seed's run is kept, and its disk looked at."""
import re
import shutil
import subprocess
from dataclasses import dataclass, replace
from random import Random

from cases.guests import RETURN
from cases.sharers import Sharer
from model.abi import Call
from model.assembler import STOP, Jump, call_words, image_of
from model.hunts import (SAID, Folded, Options, fold, is_fed, known_lines, line_of_kept, lines_of_table, refusal_of_keep, said_of, status_of,
                         text_of_outcome)
from model.stretches import Recording

TIME_LIMIT = 60
LAST_SEED = 2 ** 64 - 2


class Hunted(Sharer):
    """Nobody sleeps till the end of time to print, hardly anybody reads where there is nothing to read, and most loops are left by a return."""

    def __init__(self, chance, reads):
        self.reads = reads
        super().__init__(chance)
        is_endless = chance.random() < 0.2
        items = [item if is_endless or not (item == STOP or isinstance(item, Jump)) else RETURN for item in self.program.items]
        self.program.items = items
        self.image = image_of(self.program.words())

    def theme_weights(self):
        return {**super().theme_weights(), "stream": 4 if self.reads else 0.2, "odd": 0.4}

    def add_dump(self):
        self.program.label("dump")
        self.program.add(call_words(Call.PUTC, 68) + call_words(Call.THREAD_EXIT, 0))


@dataclass
class HuntsCase:
    image: bytes
    seeds: range
    options: Options
    input: bytes | None  # what each run reads

    def disk(self):
        """None is given."""
        return b""


def hunts_case(chance, seed):
    data = chance.choice([None, b"", b"\xff", chance.randbytes(chance.choice([63, 64, 65, 300, 5000]))])
    fed = None if data is None else "input"
    options = Options(chance.choice([16, 17]), chance.choice([1, 1, 2, 3]), chance.choice([50, 500, 3000, 3000]), fed,
                      ignores_output=Random(f"ignored output {seed}").random() < 0.3)
    first = chance.choice([1, chance.randrange(1000), chance.randrange(LAST_SEED - 9), LAST_SEED - 4])
    return HuntsCase(Hunted(chance, data is not None).image, range(first, first + chance.choice([1, 3, 5])), options, data)


def hunt(ckrt, folder, seeds, options, *more):
    """The status, and the lines; the image is in the folder."""
    words = [ckrt, "hunt", "image", "--seeds", f"{seeds[0]}-{seeds[-1]}", *options.words().split(), *more]
    done = subprocess.run(words, cwd=folder, capture_output=True, timeout=TIME_LIMIT, text=True)
    return done.returncode, done.stdout.splitlines()


@dataclass
class Kept:
    """What a seed's hunt shows, and what the disk that it keeps has recorded, which comes to an outcome."""
    status: int
    lines: list
    recording: Recording
    folded: Folded
    outcome: str


def kept_run(ckrt, case, folder, seed):
    """That of a seed, and None or what is wrong with its disk."""
    disk, options = folder / "kept", case.options
    disk.unlink(missing_ok=True)
    status, lines = hunt(ckrt, folder, [seed], options, "--keep", "kept")
    if not disk.exists():
        return None, f"no disk: {status} {lines}"
    recording = Recording(bytearray(disk.read_bytes()))
    if recording.first or bytes(recording.machine.memory.bytes).rstrip(b"\0") != case.image.rstrip(b"\0"):
        return None, f"a disk of {recording.first} events at its begin, or of another image"
    if not is_fed(recording, case.input):
        return None, "an input that isn't given as a drive gives it"
    folded = fold(recording)
    outcome, most = text_of_outcome(folded, options.steps, options.ignores_output), max(folded.steps, folded.events)
    if most > options.steps or (outcome.startswith("no end") and most < options.steps):
        return None, f"{outcome}: {folded.steps} steps and {folded.events} events"
    return Kept(status, lines, recording, folded, outcome), None


def difference_of_kept(ckrt, case, folder, seed):
    """What the kept disk shows, and None or where that and the lines differ."""
    kept, difference = kept_run(ckrt, case, folder, seed)
    if difference:
        return None, difference
    switches, drawn = kept.folded.switches, re.search(r"drawn with (\d+)$", kept.lines[-1])
    if drawn is None or int(drawn[1]) < switches:
        return None, f"{switches} switches: {kept.lines[-1]}"
    table = lines_of_table("image", {seed: kept.outcome}, case.options, {seed: said_of(kept.folded)})
    expected = known_lines([*table, line_of_kept(seed, "kept", switches, drawn[1])], case.options.ignores_output)
    shown = kept.status, known_lines(kept.lines, case.options.ignores_output)
    wanted = status_of([kept.outcome]), expected
    return kept, None if shown == wanted else f"model {wanted}, program {shown}"


def difference_of_hunts(ckrt, case, folder, tally):
    """None, or where they differ: by each kept disk, or in the table of all seeds."""
    (folder / "image").write_bytes(case.image)
    if case.input is not None:
        (folder / "input").write_bytes(case.input)
    outcomes, said = {}, {}
    for seed in case.seeds:
        kept, difference = difference_of_kept(ckrt, case, folder, seed)
        if difference:
            return f"seed {seed}: {difference}"
        outcomes[seed], said[seed] = kept.outcome, said_of(kept.folded)
        tally["outcome of a hunt", kept.outcome.split(",")[0].split()[0]] += 1
        tally["said in a hunt", "a line" if said[seed] else "nothing"] += 1
    ignores = case.options.ignores_output
    tally["output of a hunt", "ignored" if ignores else "compared"] += 1
    expected = status_of(outcomes.values()), known_lines(lines_of_table("image", outcomes, case.options, said), ignores)
    status, lines = hunt(ckrt, folder, case.seeds, case.options)
    shown = status, known_lines(lines, ignores)
    difference = None if shown == expected else f"table: model {expected}, program {shown}"
    return difference or difference_of_said(ckrt, case, folder, lines) or difference_of_refused(ckrt, case, folder, tally)


def difference_of_said(ckrt, case, folder, lines):
    """Where no output tells outcomes apart, what stands below an outcome is what its first seed's run said, as a hunt of that seed has it that compares
    outputs."""
    if not case.options.ignores_output:
        return None
    for line, below in zip(lines, lines[1:]):
        if line.startswith("outcome "):
            seed = int(re.search(r"first by seed (\d+): ", line)[1])
            compared = hunt(ckrt, folder, [seed], replace(case.options, ignores_output=False))[1]
            said = [other for other in (below, compared[1]) if other.startswith(SAID)]
            if len(set(said)) > 1 or len(said) == 1:
                return f"{line} {below!r}: where outputs are compared {compared}"
    return None


REFUSED = ["taken", "link", "made/", "none/", "image/", "none/disk", "image/disk", "made", "other", "others/"]


def listed(folder):
    """What lies in a folder, with its bytes."""
    return {str(file.relative_to(folder)): file.read_bytes() if file.is_file() else file.is_symlink() for file in sorted(folder.rglob("*"))}


def difference_of_refused(ckrt, case, folder, tally):
    """Where no disk can be made, that is told before anything is opened: there is no such image. Nothing is left, nor touched."""
    place = folder / "refused"
    (place / "made").mkdir(parents=True)
    (place / "others").mkdir()
    for name in ("taken", "taken.making", "image", "made/outcome-1.disk", "made/outcome-1.disk.making", "other.making", "others/outcome-1.disk.making"):
        (place / name).write_bytes(b"something")
    (place / "link").symlink_to("nowhere")
    before, words = listed(place), [*case.options.words().split(), "--seeds", f"{case.seeds[0]}-{case.seeds[-1]}"]
    differences = []
    for path in REFUSED:
        done = subprocess.run([ckrt, "hunt", "missing", *words, "--keep", path], cwd=place, capture_output=True, timeout=TIME_LIMIT, text=True)
        shown, expected = done.stderr.splitlines()[-2:], [refusal_of_keep(path, place), "ckrt: File"]
        tally["refused --keep", path] += 1
        if (done.returncode, done.stdout, shown) != (1, "", expected):
            differences.append(f"--keep {path}: model {expected}, program {done.returncode} {done.stdout!r} {shown}")
    differences += [f"left of refused hunts: {sorted(listed(place))}"] * (listed(place) != before)
    shutil.rmtree(place)
    return next(iter(differences), None)
