"""Runs cases on the program and on the model, and compares replies, exit status, standard error and the disk's bytes."""
import argparse
import os
import subprocess
import sys
import tempfile
import time
from collections import Counter
from dataclasses import dataclass, field
from pathlib import Path
from random import Random

from cases.beside import BesideCase, difference_of_beside
from cases.checked import CheckedCase, difference_of_checked
from cases.debugged import DebuggedCase, difference_of_debugged
from cases.drives import DrivesCase, difference_of_drives
from cases.formats import FormatCase
from cases import kitted, passers
from cases.glances import OF_BYTES, OF_KIT, OF_ORDERS, RacesCase, TimelinesCase, difference_of_races, difference_of_timelines, rules_not_met
from cases.halts import HaltsCase, difference_of_halts
from cases.heaped import ChecksCase, difference_of_checks
from cases.histories import HistoriesCase, is_turned
from cases.hunted import HuntsCase, difference_of_hunts
from cases.images import ImagesCase, difference_of_images
from cases.inputs import InputsCase, difference_of_inputs
from cases.kept import KeptCase, difference_of_kept
from cases.kinds import KINDS, Case, case_of
from cases.lived import LivedCase, difference_of_lived
from cases.lockers import LockersCase
from cases.many import ManyCase, difference_of_many
from cases.mixed import MixedCase, difference_of_mixed
from cases.moved import MovedCase, difference_of_moved
from cases.nested import NestedCase
from cases.profiled import ProfilesCase, difference_of_profiles
from cases.raced import RacedCase, difference_of_raced
from cases.schedules import SchedulesCase, difference_of_schedules
from cases.snapshots import SnapshotsCase, difference_of_snapshots
from cases.stepped import SteppedCase, difference_of_stepped
from cases.streams import joined
from cases.timed import TimedCase, difference_of_timed
from cases.traced import CutCase, ListingsCase, LivesCase, TracedCase
from cases.traced_runs import difference_of_cut, difference_of_lists, difference_of_traced
from cases.words import NAMED, NAMES, OWN_NAMES, WordsCase
from model.abi import KEY_CALLS, Call
from model.call_lines import History, kind_of_line, lines_before_refused
from model.cycle_texts import all_told
from model.layout import Geometry, format_disk
from model.lines import serve_disk
from model.listing import OutOfRange, listing
from model.races import Readings
from model.recovery import Unrecovered
from model.stretches import Recording
from model.switches import SWITCHES

TIME_LIMIT = 60
LOOKING = b"place 0 1\nplace 0 2\ntick 1\nauto 0 20\nin 41\nauto 0 90\ncommit\n"  # a life that shows what a disk holds


@dataclass(frozen=True)
class Life:
    """What a life shows: the status is None where it was killed."""
    status: int | None
    replies: bytes
    errors: bytes


@dataclass
class Totals:
    cases: Counter = field(default_factory=Counter)
    lives: Counter = field(default_factory=Counter)
    replies: Counter = field(default_factory=Counter)
    differences: list = field(default_factory=list)
    answers: Counter = field(default_factory=Counter)


def life_of_model(disk, data, is_killed, tally):
    """Changes the disk's bytes."""
    try:
        replies = serve_disk(disk, data, tally)
    except Unrecovered as fault:
        tally["recovery", str(fault)] += 1
        return Life(1, b"", f"ckrt: {fault}\n".encode())
    tally["recovery", "recovered"] += 1
    return Life(None if is_killed else 0, b"".join(reply.encode() + b"\n" for reply in replies), b"")


def listing_of_model(disk, at=None, is_with_code=False):
    """What `inspect` shows, as a life."""
    try:
        return Life(0, listing(bytearray(disk), at, is_with_code).encode(), b"")
    except (Unrecovered, OutOfRange) as fault:
        return Life(1, b"", f"ckrt: {fault}\n".encode())


def listing_of_program(ckrt, path, at=None, is_with_code=False):
    options = ([] if at is None else ["--at", str(at)]) + (["--code"] if is_with_code else [])
    return shown_by(ckrt, ["inspect", path, *options])


def difference_of_listing(ckrt, path, disk, at=None, is_with_code=False):
    """None, or where the two differ; the disk's file keeps its bytes."""
    expected, shown = listing_of_model(disk, at, is_with_code), listing_of_program(ckrt, path, at, is_with_code)
    if shown != expected:
        return f"listing (--at {at}, --code {is_with_code}): {place_of_difference(expected, shown)}"
    return None if path.read_bytes() == disk else "inspect changed the disk's bytes"


TURNED = Life(1, b"", b"ckrt: Range\n")


def calls_of_model(history, stretch):
    """What `calls` shows of a disk that recovers, as a life."""
    try:
        return Life(0, "".join(line + "\n" for line in history.lines(*stretch)).encode(), b"")
    except OutOfRange as fault:
        return Life(1, b"", f"ckrt: {fault}\n".encode())


def calls_of_program(ckrt, path, stretch):
    ends = [(name, str(end)) for name, end in zip(("--from", "--to"), stretch) if end is not None]
    return shown_by(ckrt, ["calls", path, *[word for pair in ends for word in pair]])


def with_told_before(expected, shown, disk, first):
    """What is expected, with those lines before a fault that may come and are shown: whole ones, up to the event that is refused."""
    lines = [line.encode() + b"\n" for line in lines_before_refused(disk, first)]
    told = b"".join(lines[:shown.replies.count(b"\n")])
    return Life(expected.status, told if shown.replies == told else expected.replies, expected.errors)


def kind_of_calls(life):
    fault = life.errors.decode().strip().removeprefix("ckrt: ")
    return fault + (" behind lines" if life.replies else "") if fault else "shown"


def difference_of_histories(ckrt, case, path, tally):
    """None, or where the two differ on a stretch; the disk's file keeps its bytes. Without an end lines may come before a fault."""
    disk = case.disk()
    path.write_bytes(disk)
    try:
        history, fault = History(bytearray(disk)), None
    except Unrecovered as unrecovered:
        history, fault = None, Life(1, b"", f"ckrt: {unrecovered}\n".encode())
    for stretch in case.stretches:
        expected = (TURNED if is_turned(*stretch) else fault) or calls_of_model(history, stretch)
        shown = calls_of_program(ckrt, path, stretch)
        if expected is fault and stretch[1] is None:
            expected = with_told_before(fault, shown, disk, stretch[0])
        tally["calls", kind_of_calls(expected)] += 1
        tally.update(("line of calls", kind_of_line(line)) for line in expected.replies.decode().splitlines())
        if shown != expected:
            return f"calls (from, to {stretch}): {place_of_difference(expected, shown)}"
        if path.read_bytes() != disk:
            return "calls changed the disk's bytes"
    return None


def difference_of_listings(ckrt, case, path, tally):
    disk = case.disk()
    path.write_bytes(disk)
    for options in case.options:
        outcome = listing_of_model(disk, *options)
        tally["listing", outcome.errors.decode().strip().removeprefix("ckrt: ") or "shown"] += 1
        difference = difference_of_listing(ckrt, path, disk, *options)
        if difference:
            return difference
    return None


def life_of_program(ckrt, path, data):
    return shown_by(ckrt, ["run", path], data)


def killed_life(ckrt, path, data, expected):
    """Feeds lines without ending the input, reads as many bytes as are expected, and kills the program."""
    with subprocess.Popen([ckrt, "run", path], stdin=subprocess.PIPE, stdout=subprocess.PIPE, stderr=subprocess.PIPE) as child:
        os.set_blocking(child.stdin.fileno(), False)
        os.set_blocking(child.stdout.fileno(), False)
        replies, fed, end = b"", 0, time.monotonic() + 5
        while (len(replies) < len(expected) or fed < len(data)) and time.monotonic() < end:
            try:
                fed += os.write(child.stdin.fileno(), data[fed:fed + 4096]) if fed < len(data) else 0
            except (BlockingIOError, BrokenPipeError):
                pass
            got = child.stdout.read()
            replies += got or b""
            if got == b"":
                break
            if got is None:
                time.sleep(0.0005)
        child.kill()
        return Life(None, replies + (child.stdout.read() or b""), child.stderr.read())


def shown_by(ckrt, words, data=b""):
    """Of standard error the last line is compared: it has the name of the fault."""
    done = subprocess.run([ckrt, *words], input=data, capture_output=True, timeout=TIME_LIMIT)
    return Life(done.returncode, done.stdout, b"".join(done.stderr.splitlines(keepends=True)[-1:]))


def difference_of_format(ckrt, case, folder, tally):
    """None, or in a few words where the two differ."""
    disk, image = folder / "formatted", folder / "image"
    image.write_bytes(case.image)
    disk.unlink(missing_ok=True)
    if case.before is not None:
        disk.write_bytes(case.before)
    sizes = [str(number) for number in (case.geometry.pages, case.geometry.harts, case.geometry.journal)]
    options = [word for pair in zip(("--pages", "--harts", "--journal"), sizes) for word in pair]
    shown = shown_by(ckrt, ["format", disk, image, *options])
    refusal, after = case.outcome()
    tally["format", refusal or "formatted"] += 1
    if refusal is None:
        expected = Life(0, b"formatted %d\n" % case.geometry.size, b"")
    else:
        expected = Life(1, b"", f"ckrt: {refusal}\n".encode())
    if shown != expected:
        return f"format: {place_of_difference(expected, shown)}"
    return None if after == (disk.read_bytes() if disk.exists() else None) else "format: the disk's bytes"


def expected_of_words(case, contents, image):
    """The status, what is printed, and the name of the fault; the disk that is there has these contents."""
    if case.command is None:
        return 2, b"", None
    if case.are_names_refused():
        return 1, b"", "Names"
    if case.command == "format":
        fault = case.fault_of_format(image)
        return (1, b"", fault) if fault else (0, b"formatted %d\n" % case.geometry().size, None)
    if case.command == "calls" and is_turned(case.options["from"], case.options["to"]):
        return 1, b"", "Range"
    if case.files != ("disk",):
        return 1, b"", "File"
    if case.command == "run":
        return 0, b"", None
    if case.command == "races":
        recording = Recording(bytearray(contents))
        return 0, "".join(line + "\n" for line in all_told(recording, recording.show(Readings()))[0]).encode(), None
    if case.command == "calls":
        shown = calls_of_model(History(bytearray(contents)), (case.options["from"], case.options["to"]))
    else:
        shown = listing_of_model(contents, case.options["at"], case.options["code"])
    return shown.status, shown.replies, "Range" if shown.status else None


def difference_of_words(ckrt, case, folder, tally):
    """In a folder with a disk, a fitting image, one that is too long, and a folder; nothing is read from standard input."""
    contents, image = bytes(format_disk(Geometry(16, 1, 4096), b"")), bytes(4)
    long = bytes(4096 * 1024)
    for name, data in (("disk", contents), ("image", image), ("long", long), (NAMES[0], NAMES[1].encode()), (OWN_NAMES[0], OWN_NAMES[1].encode())):
        (folder / name).write_bytes(data)
    (folder / "missing").unlink(missing_ok=True)
    (folder / "folder").mkdir(exist_ok=True)
    expected = expected_of_words(case, contents, long if case.files[1:] == ("long",) else image)
    done = subprocess.run([ckrt, *case.words], stdin=subprocess.DEVNULL, cwd=folder, capture_output=True, timeout=TIME_LIMIT)
    (folder / "folder").rmdir()
    fault = done.stderr.splitlines()[-1].removeprefix(b"ckrt: ").decode() if done.returncode == 1 else None
    tally["words", expected[2] or f"status {expected[0]}"] += 1
    if (done.returncode, done.stdout, fault) != expected or bool(done.stderr) != bool(done.returncode):
        return f"{case.words}: model {expected}, program {done.returncode, done.stdout[:100], done.stderr[-100:]}"
    return difference_of_names(case, done.stderr.decode(errors="replace").splitlines())


def difference_of_names(case, told):
    """None, or what of that about names isn't on standard error: where the file is missing, and in a usage."""
    if case.asks_for_usage() and any("--names <FILE>" in line for line in told) != (case.words[0] in NAMED):
        return f"{case.words}: names in its usage"
    if case.names == "missing" and told[-2:-1] != ["the names missing: there is no such file"]:
        return f"{case.words}: {told}"
    return None


def difference_of_lives(ckrt, case, folder, tally, count_life):
    disk, path = case.disk(), folder / "disk"
    if case.damaged is None and case.version is None:
        difference = difference_of_format(ckrt, FormatCase(case.geometry, case.image, None), folder, tally)
        if difference is not None:
            return difference
    path.write_bytes(disk)
    for number, data in enumerate(case.lives, 1):
        (folder / f"lines.{number}").write_bytes(data)
        expected = life_of_model(disk, data, case.is_killed, tally)
        if case.is_killed:
            shown = killed_life(ckrt, path, data, expected.replies)
        else:
            shown = life_of_program(ckrt, path, data)
        count_life(expected.replies.count(b"\n"))
        if shown != expected:
            (folder / f"model.{number}").write_bytes(expected.replies + expected.errors)
            (folder / f"program.{number}").write_bytes(shown.replies + shown.errors)
            return f"life {number}: {place_of_difference(expected, shown)}"
        if path.read_bytes() != disk:
            (folder / "disk.model").write_bytes(disk)
            return f"life {number}: the disk's bytes"
        difference = difference_of_listing(ckrt, path, disk)
        if difference is not None:
            return f"after life {number}: {difference}"
    return None


def difference_of_stops(ckrt, case, path, tally, count_life):
    """What each life leaves is listed, and a life on a copy of it takes events."""
    return difference_of_lists(ckrt, case, path, tally, count_life,
                               lambda left: difference_of_next_life(ckrt, path, left, LOOKING, tally))


def difference_of_next_life(ckrt, path, disk, data, tally):
    """The listing of a copy of the disk, and then a life on it."""
    copy = path.with_name("copy")
    copy.write_bytes(disk)
    difference = difference_of_listing(ckrt, copy, disk)
    if difference:
        return difference
    expected, shown = life_of_model(disk, data, False, tally), life_of_program(ckrt, copy, data)
    if shown != expected:
        return f"next life: {place_of_difference(expected, shown)}"
    return None if copy.read_bytes() == disk else "next life: the disk's bytes"


def difference_of_fate(ckrt, case, path, tally, count_life):
    """A life under trace, and the next one on what it left."""
    difference = difference_of_traced(ckrt, case, path, tally, count_life)
    data = joined(Random(0), case.lines_after)
    return difference or difference_of_next_life(ckrt, path, bytearray(path.read_bytes()), data, tally)


def difference_behind_cut(ckrt, case, path, tally):
    """That of a format that is stopped, or of a life on what it has left."""
    difference = difference_of_cut(ckrt, case, path, tally)
    return difference or difference_of_next_life(ckrt, path, bytearray(path.read_bytes()), LOOKING, tally)


# What compares a case, by its type: it is given the path of the case's disk, or its folder, and in the last two what counts a life.
OF_DISK = {
    MovedCase: difference_of_moved, SteppedCase: difference_of_stepped, LivedCase: difference_of_lived, DebuggedCase: difference_of_debugged,
    ListingsCase: difference_of_listings, HistoriesCase: difference_of_histories, TimelinesCase: difference_of_timelines,
    ProfilesCase: difference_of_profiles, RacesCase: difference_of_races, NestedCase: difference_of_races, LockersCase: difference_of_races, ChecksCase: difference_of_checks, CutCase: difference_behind_cut,
}
OF_FOLDER = {
    FormatCase: difference_of_format, TimedCase: difference_of_timed, RacedCase: difference_of_raced, CheckedCase: difference_of_checked, HuntsCase: difference_of_hunts,
    ManyCase: difference_of_many,
    WordsCase: difference_of_words,
}
OF_DISK_COUNTED = {LivesCase: difference_of_stops, TracedCase: difference_of_fate}
OF_FOLDER_COUNTED = {
    Case: difference_of_lives, HaltsCase: difference_of_halts, InputsCase: difference_of_inputs, MixedCase: difference_of_mixed,
    DrivesCase: difference_of_drives, ImagesCase: difference_of_images, SchedulesCase: difference_of_schedules,
    BesideCase: difference_of_beside, KeptCase: difference_of_kept, SnapshotsCase: difference_of_snapshots,
}


def first_difference(ckrt, case, folder, tally, count_life):
    """Runs a case; None, or in a few words where the two differ."""
    kind, path = type(case), folder / "disk"
    if kind in OF_DISK:
        return OF_DISK[kind](ckrt, case, path, tally)
    if kind in OF_FOLDER:
        return OF_FOLDER[kind](ckrt, case, folder, tally)
    if kind in OF_DISK_COUNTED:
        return OF_DISK_COUNTED[kind](ckrt, case, path, tally, count_life)
    return OF_FOLDER_COUNTED[kind](ckrt, case, folder, tally, count_life)


def place_of_difference(expected, shown):
    if expected.replies == shown.replies:
        return f"model {expected.status} {expected.errors!r}, program {shown.status} {shown.errors!r}"
    wanted, got = expected.replies.split(b"\n"), shown.replies.split(b"\n")
    for number, pair in enumerate(zip(wanted, got), 1):
        if pair[0] != pair[1]:
            return f"reply {number}: model {pair[0][:100]!r}, program {pair[1][:100]!r}"
    return f"{len(wanted) - 1} replies of the model, {len(got) - 1} of the program"


def run_case(ckrt, kind, seed, folder, totals):
    case = case_of(kind, seed)
    work = folder / f"{kind}-{seed}"
    work.mkdir(exist_ok=True)
    totals.cases[kind] += 1

    def count_life(replies):
        totals.lives[kind] += 1
        totals.replies[kind] += replies

    difference = first_difference(ckrt, case, work, totals.answers, count_life)
    if difference is None:
        for file in work.iterdir():
            file.unlink()
        work.rmdir()
        return
    if not isinstance(case, (FormatCase, WordsCase)):
        (work / "disk.before").write_bytes(case.disk())
    if isinstance(case, (LivesCase, TracedCase)):
        for number, lines in enumerate(case.texts if isinstance(case, LivesCase) else [case.lines, case.lines_after], 1):
            (work / f"lines.{number}").write_bytes(joined(Random(0), lines))
    totals.differences.append(f"{kind} {seed}")
    print(f"DIFFERENCE {kind} {seed}: {difference}\n  files in {work}\n"
          f"  again: python3 {Path(__file__).name} {ckrt} {folder} --kinds {kind} --seed {seed} --count 1"
          f"{''.join(' ' + word for word in SWITCHES.words())}", flush=True)


def print_answers(answers):
    """How often each call gave each answer, how waits ended, what was refused; and calls that were never made."""
    rows = {}
    for (name, answer), count in answers.items():
        rows.setdefault(name, []).append((answer, count))
    for name in sorted(rows):
        print(f"  {name:20}" + ", ".join(f"{answer} {count}" for answer, count in sorted(rows[name])))
    known = [call.name.lower() for call in Call if SWITCHES.keys or call not in KEY_CALLS]
    never = [name for name in known if name not in rows]
    if never:
        print("  never made: " + ", ".join(never))


def print_totals(totals):
    print("how often each answer was given by the model:")
    print_answers(totals.answers)
    for kind, count in totals.cases.items():
        print(f"{kind}: {count} cases, {totals.lives[kind]} lives, {totals.replies[kind]} replies")
    print(f"{totals.cases.total()} cases, {len(totals.differences)} differences")


def print_rules_not_met(totals):
    """Whether there are any, though there were enough cases to meet each."""
    subjects = [OF_KIT, OF_BYTES] if totals.cases["kit"] >= kitted.CASES else []
    subjects += [OF_ORDERS] if totals.cases["orders"] >= passers.CASES else []
    missed = rules_not_met(totals.answers, subjects)
    for rule in missed:
        print(f"NEVER MET: {rule}")
    return bool(missed)


def words():
    parser = argparse.ArgumentParser(description=__doc__)
    parser.add_argument("ckrt", type=os.path.abspath, help="the built program")
    parser.add_argument("folder", nargs="?", help="where a case's files lie (a fresh temporary folder)")
    parser.add_argument("--count", type=int, default=50, help="cases of each kind (50)")
    parser.add_argument("--seed", type=int, default=1, help="the first seed (1)")
    parser.add_argument("--step", type=int, default=1, help="from one seed to the next (1)")
    parser.add_argument("--kinds", help="kinds of cases, with commas between (all)")
    parser.add_argument("--stop-after", type=int, default=5, help="stop after so many differences (5)")
    parser.add_argument("--keys", action="store_true", help="the program has thread-specific keys and tables of version 2")
    parser.add_argument("--long-runs", action="store_true", help="the program has long runs, and all of --keys")
    parser.add_argument("--programs", action="store_true", help="the program's disks note their image, and it has all of --long-runs")
    parser.add_argument("--schedules", action="store_true", help="the program's disks note the schedule of their drive, and it has all of --programs")
    chosen = parser.parse_args()
    chosen.kinds = chosen.kinds.split(",") if chosen.kinds else list(KINDS)
    unknown = set(chosen.kinds) - set(KINDS)
    if unknown:
        parser.error(f"no such kind: {', '.join(sorted(unknown))}")
    return chosen


def main():
    chosen = words()
    SWITCHES.schedules, SWITCHES.programs = chosen.schedules, chosen.schedules or chosen.programs
    SWITCHES.long_runs = SWITCHES.programs or chosen.long_runs
    SWITCHES.keys = chosen.keys or SWITCHES.long_runs
    folder = Path(chosen.folder or tempfile.mkdtemp(prefix="compare-"))
    folder.mkdir(parents=True, exist_ok=True)
    totals = Totals()
    for kind in chosen.kinds:
        for seed in range(chosen.seed, chosen.seed + chosen.count * chosen.step, chosen.step):
            if len(totals.differences) < chosen.stop_after:
                run_case(chosen.ckrt, kind, seed, folder, totals)
    print_totals(totals)
    is_missed = print_rules_not_met(totals)
    if not chosen.folder and not totals.differences:
        folder.rmdir()
    sys.exit(1 if totals.differences or is_missed else 0)


if __name__ == "__main__":
    main()
