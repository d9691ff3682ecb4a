"""Measures `ckrt run` on a real file, alternating with what it is measured against, and prints ratios.

Word: the folder of the disks (the present one, if none).

Commits: lines with one event of seven bytes and a `commit`, all handed in at once; the time from one `ack` to a later one,
for each commit between them, beside the median of the same four calls in plain Rust. Steps: a guest in Runs of 65,535 steps
with a commit after every 100, from the first line to the end of the process, beside the machine alone: once with lines from
a file and replies to one, and once through pipes, where whoever reads the replies is on the same machine; by the clock, and by
processor time, since a service sleeps in each sync and gets a processor back when others leave it one. Syncs: a plain loop in
batches of as long, with the four calls of a commit behind each, beside the same loop without. Recovery: a disk
of 256 pages whose journal of 65,536 bytes is full of the guest's Runs, from the start of the process to its end, beside
reading the disk's bytes and the machine alone with the same Runs. Memory: the resident size of `ckrt run` on a disk of 1,024
pages, that of the process alone and that with its program and the C library.
"""
import re
import statistics
import subprocess
import sys
import time
from pathlib import Path

from common import found, guest, make_disk, make_zeros, plain, ratios_of, resident, run, steps_told, turns, wait_for_ack
from processes import Spent, timed
from results import note
from shared import lives

ROUNDS = 30
STEP_ROUNDS = 15
COMMITS = 40
# The first commits to a disk that was just made are slow in both, and not counted.
WARM_UP = 5
JOURNAL = 1_048_576
# Runs in a batch, and batches in a journal of 65,536 bytes: a Run has 4 bytes, and a batch 3 more.
RUNS, BATCHES = 1_000, 16
# Batches of a plain loop, and the seconds of processor time of each: what a hundred Runs take on the machine.
BATCHES_TIMED, BATCH_SECONDS = 60, 0.0155
GUEST = "nqueens-big"


def commit_time(ckrt, path):
    """The nanoseconds of a commit through the program, its lines included."""
    lines = "in 0102030405\ncommit\n" * (WARM_UP + COMMITS)
    with lives.service(ckrt, path, text=True) as child:
        child.stdin.write(lines)
        child.stdin.close()
        moments = [time.perf_counter_ns() for line in child.stdout if line.startswith("ack")]
    return (moments[-1] - moments[WARM_UP - 1]) / COMMITS


def plain_time(journal, path):
    """The nanoseconds of the four calls of a commit in plain Rust."""
    make_zeros(path, JOURNAL)
    text = run([journal, "append", path, "7", str(WARM_UP + COMMITS)])[1]
    path.unlink()
    return statistics.mean(int(word) for word in text.split()[WARM_UP:])


def noted(what, unit, ours, base):
    """The median of the rounds' ratios, and its quartiles, as they are printed and kept."""
    low, middle, high = ratios_of(ours, base)
    note("service", what, unit, statistics.median(ours), statistics.median(base), (low, middle, high))
    return f"ratio {middle:.3f} ({low:.3f} to {high:.3f})"


def commits(journal, ckrt, image, folder):
    disk, times = folder / "service.disk", ([], [])
    measured = (lambda: plain_time(journal, folder / "service.journal"), lambda: commit_time(ckrt, disk))
    for turn in turns(ROUNDS):
        make_disk(ckrt, disk, image, pages=16, journal=JOURNAL)
        for k in turn:
            times[k].append(measured[k]())
    disk.unlink()
    base, ours = times
    print(f"commit: plain {statistics.median(base) / 1e3:.1f} us, ckrt run {statistics.median(ours) / 1e3:.1f} us, {noted('commit', 'ns', ours, base)}")


def piped(command, lines, _folder):
    """The replies to lines that come through a pipe, and go through one to a reader that takes each as it comes; and what it took."""
    done, spent = timed(command, input=lines, capture_output=True, text=True)
    return done.stdout, spent


def from_file(command, lines, folder):
    """The replies, in a file, to lines from a file; and what it took."""
    asked, answered = folder / "service.lines", folder / "service.replies"
    asked.write_text(lines, encoding="ascii")
    with open(asked, "rb") as source, open(answered, "wb") as target:
        spent = timed(command, stdin=source, stdout=target)[1]
    replies = answered.read_text(encoding="ascii")
    asked.unlink()
    answered.unlink()
    return replies, spent


def rates(count, spent):
    """So many steps, by each kind of second."""
    return Spent(*(count / seconds for seconds in spent))


def service_rates(ckrt, path, image, runs, feed):
    """The steps a second of a guest through the program, whose lines are fed so."""
    make_disk(ckrt, path, image, pages=64, journal=JOURNAL)
    lines = "place 0 1\n" + ("run 0 65535\n" * 100 + "commit\n") * (runs // 100 + 1)
    replies, spent = feed([ckrt, "run", path], lines, path.parent)
    path.unlink()
    return rates(sum(int(m) for m in re.findall(r"ran (\d+)", replies)), spent)


def machine_rates(machine, image):
    """The steps of the same guest on the machine alone, and how many a second, from the start of the process to its end."""
    done, spent = timed([machine, "run", image, "64", "1", "65535"], capture_output=True, text=True)
    steps = steps_told(done.stderr)
    return steps, rates(steps, spent)


def steps(ckrt, machine, image, folder):
    disk = folder / "service.disk"
    feeds = {"lines from a file": from_file, "lines through pipes": piped}
    ours, base = {name: [] for name in feeds}, []
    for _ in range(STEP_ROUNDS):
        count, alone = machine_rates(machine, image)
        base.append(alone)
        for name, feed in feeds.items():
            ours[name].append(service_rates(ckrt, disk, image, count // 65_535, feed))
    for name, through in ours.items():
        for part in Spent._fields:
            mine, alone = ([getattr(it, part) for it in rounds] for rounds in (through, base))
            what = f"steps, {name}" + (", processor time" if part == "processor" else "")
            print(f"{what}: machine alone {statistics.median(alone) / 1e6:.0f} million a second, "
                  f"ckrt run {statistics.median(mine) / 1e6:.0f}, {noted(what, 'steps/s', mine, alone)}")


def batch_words(batches, folder):
    """The file of a plain loop, and how many rounds of it take as long as a hundred Runs."""
    file, rounds = folder / "service.batches", 1_000_000
    make_zeros(file, JOURNAL)
    spent = timed([batches, "alone", file, str(rounds), str(BATCHES_TIMED)], stdout=subprocess.DEVNULL)[1]
    return file, str(int(rounds * BATCH_SECONDS * BATCHES_TIMED / spent.processor))


def syncs(batches, folder):
    """What the four calls of a commit behind each batch cost a plain loop."""
    file, rounds = batch_words(batches, folder)
    times = {job: [] for job in ("alone", "synced")}
    for turn in turns(STEP_ROUNDS):
        for job in (("alone", "synced")[k] for k in turn):
            times[job].append(timed([batches, job, file, rounds, str(BATCHES_TIMED)], stdout=subprocess.DEVNULL)[1])
    file.unlink()
    for part in Spent._fields:
        rate = {job: [BATCHES_TIMED / getattr(it, part) for it in spent] for job, spent in times.items()}
        what = "plain batches with a commit's calls" + (", processor time" if part == "processor" else "")
        print(f"{what}: without {statistics.median(rate['alone']):.1f} a second, with {statistics.median(rate['synced']):.1f}, "
              f"{noted(what, 'batches/s', rate['synced'], rate['alone'])}")


def recovery(ckrt, machine, image, folder):
    disk = folder / "service.disk"
    count = machine_rates(machine, image)[0]
    most = -(-count // (RUNS * BATCHES - 1))
    make_disk(ckrt, disk, image, pages=256, journal=65_536)
    run([ckrt, "run", disk], "place 0 1\n" + (f"run 0 {most}\n" * (RUNS - 1) + "commit\n") * BATCHES)
    ours, base = [], []
    for _ in range(STEP_ROUNDS):
        start = time.perf_counter()
        disk.read_bytes()
        run([machine, "run", image, "256", "1", str(most)])
        base.append(time.perf_counter() - start)
        start = time.perf_counter()
        run([ckrt, "run", disk])
        ours.append(time.perf_counter() - start)
    disk.unlink()
    print(f"recovery: bytes and steps {statistics.median(base) * 1e3:.0f} ms, ckrt run {statistics.median(ours) * 1e3:.0f} ms, {noted('recovery', 's', ours, base)}")


def resident_of(ckrt, path, image, pages):
    """The resident KiB of a run that has placed a thread and committed: of the process alone, and with what it maps."""
    make_disk(ckrt, path, image, pages=pages, journal=JOURNAL)
    with lives.service(ckrt, path, text=True) as child:
        lives.feed(child, ["place 0 1", "run 0 65535", "commit"])
        wait_for_ack(child)
        found_so = resident(child.pid)
        child.stdin.close()
    path.unlink()
    return found_so


def main():
    folder, image = Path(*sys.argv[1:2] or "."), guest(GUEST)
    ckrt, machine = found("ckrt", "ckrt_bench_probe")
    batches = plain("batches")
    commits(plain("journal"), ckrt, image, folder)
    steps(ckrt, machine, image, folder)
    syncs(batches, folder)
    recovery(ckrt, machine, image, folder)
    alone, mapped = resident_of(ckrt, folder / "service.disk", image, 1_024)
    note("service", "resident, process alone", "KiB", alone)
    note("service", "resident, with program and C library", "KiB", mapped)
    print(f"resident with 1,024 pages: {alone} KiB, with program and C library {mapped} KiB")
