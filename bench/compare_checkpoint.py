"""Measures checkpoints and recoveries of real disks, alternating with what they are measured beside, and prints ratios.

Words: the folder of the disks (the present one, if none), and jobs (`checkpoints`, `changed`, `recorded`, `recovery`, `large`,
`power-on`, `resident`, `inspect`; all, if none is named).

checkpoints: on disks of 64, 256 and 1,024 pages, of all of them, beside the same reads, writes and syncs in plain Rust. Each program has a
disk of its own; after all rounds the two are compared byte by byte. changed: the same on a disk of 1,024 pages, of which four, or none,
have changed since the last checkpoint into the same area. recorded: checkpoints as a drive with an input makes them, each behind a
commit and with its record, beside checkpoints without these: of all pages, and of four of 1,024. recovery: of such disks with an empty journal, in a new
process each time, beside the same sync and reading the same bytes into new memory. large: the same of disks of 65,536 pages, where four pages have
changed and where all are written, and how such a disk is made, beside as many zeros that are written and synced. power-on: from the start of `ckrt run` to
its first reply, on a disk of 64 pages whose journal of 1,048,576 bytes has no room for another batch of Runs, beside reading the disk's
bytes and the machine alone with as many Runs. resident: of `ckrt run` with 1,024 pages, after an event, a commit and two
checkpoints. inspect: `ckrt inspect` of disks of 1,024 pages with an empty journal, of a program that hasn't begun and of one
with 64 threads, 61 waits and 201 mutexes, from the start of the process to its end, beside `ckrt run` of them without a line, which
recovers the program and does nothing else.
"""
import os
import statistics
import sys
import time
from pathlib import Path

from common import found, guest, plain, ratios_of, resident, run, steps_told, sync, turns, wait_for_ack
from results import note
from shared import lives
from shared.disks import make

PAGES = (64, 256, 1_024)
ROUNDS = 31
LARGEST, LARGE_ROUNDS = 65_536, 9
# The first checkpoint of a process writes all pages, since the area that it goes to wasn't read; later ones write those that changed.
CHECKPOINTS = 1
# The first writes to a disk that was just made are slow in both, and not counted; each area is written once.
WARM_UP = 4
RECOVERIES = 101
POWER_ONS = 9
JOURNAL = 1_048_576
# A batch of 4,096 bytes of Runs, of which each has 4.
RUNS = 1_024
GUEST = "nqueens-big"
# Its first thread owns 201 mutexes, and 61 of the other 63 wait for one, once each has had a turn with one of the first between.
CROWD, TURNS = "locks-crowded", 128
# A round of its one thread has nine steps, and stores into four pages.
STORES, STORES_ROUND = "stores-4", 9
# Checkpoints of one process; each is fast, and the first ones are whole.
CHANGES = 21
RECORD = 4_096  # the bytes of the record of an input, behind those of a disk
MAPPED_LIMIT = 4_096 + 1_280


class Bench:
    def __init__(self, folder):
        self.plain, self.folder = plain("disk"), Path(folder)
        self.ckrt, self.probe = found("ckrt", "ckrt_bench_probe")
        self.image, self.crowd, self.stores = guest(GUEST), guest(CROWD), guest(STORES)

    def format_disk(self, name, pages, journal=4_096, image=None):
        """A disk that was just formatted."""
        return make(self.ckrt, self.folder / name, image or self.image, pages=pages, journal=journal)

    def checkpoint_times(self, program, job, path, count):
        return [int(word) for word in run([program, job, path, str(count)])[1].split()]

    def alternate(self, what, job, disks, count, rounds=ROUNDS):
        """Checkpoints of one job in turns, `count` of each process; then the disks have to be the same."""
        programs, times = (self.plain, self.probe), ([], [])
        for program, disk in zip(programs, disks):
            self.checkpoint_times(program, job, disk, WARM_UP)
        for turn in turns(rounds):
            for k in turn:
                times[k].append(statistics.median(self.checkpoint_times(programs[k], job, disks[k], count)))
        self.report(what, times[1], times[0])
        contents = [disk.read_bytes() for disk in disks]
        for disk in disks:
            disk.unlink()
        if contents[0] != contents[1]:
            sys.exit("the two disks differ")

    def checkpoints(self):
        for pages in PAGES:
            disks = [self.format_disk(f"checkpoint_{k}.disk", pages) for k in (0, 1)]
            self.alternate(f"checkpoint of {pages} pages", "checkpoint", disks, CHECKPOINTS)

    def stores_disk(self, name, pages=1_024):
        """A disk on which the guest has made a round, and is at the beginning of the next."""
        disk = self.format_disk(name, pages, image=self.stores)
        run([self.ckrt, "run", disk], f"place 0 1\nrun 0 {STORES_ROUND}\ncheckpoint\n")
        return disk

    def changed(self):
        for job, what in (("changed", "4 changed pages of 1024"), ("unchanged", "no changed page of 1024")):
            disks = [self.stores_disk(f"changed_{k}.disk") for k in (0, 1)]
            self.alternate(f"checkpoint of {what}", job, disks, CHANGES)

    def recorded_disk(self, name, pages):
        """A disk of `stores-4` that has begun a round, with room for the record of an input."""
        disk = self.format_disk(name, pages, image=self.stores)
        run([self.ckrt, "run", disk], f"place 0 1\nrun 0 {STORES_ROUND}\ncheckpoint\n")
        with open(disk, "r+b") as file:
            file.truncate(disk.stat().st_size + RECORD)
        return disk

    def alternate_recorded(self, what, jobs, pages, count):
        """Checkpoints of the two jobs of one program in turns, each job on a disk of its own."""
        disks, times = [self.recorded_disk(f"recorded_{k}.disk", pages) for k in (0, 1)], ([], [])
        for job, disk in zip(jobs, disks):
            self.checkpoint_times(self.probe, job, disk, WARM_UP)
        for turn in turns(ROUNDS):
            for k in turn:
                times[k].append(statistics.median(self.checkpoint_times(self.probe, jobs[k], disks[k], count)))
        for disk in disks:
            disk.unlink()
        self.report(what, times[1], times[0])

    def recorded(self):
        for pages in PAGES:
            self.alternate_recorded(f"checkpoint of {pages} pages with a commit and a record", ("checkpoint", "recorded"), pages, CHECKPOINTS)
        self.alternate_recorded("checkpoint of 4 changed pages of 1024 with a commit and a record", ("changed", "recorded-changed"), 1_024, CHANGES)

    def recoveries(self, pages, count):
        disk = self.format_disk("recovery.disk", pages)
        disk.read_bytes()
        sync(disk)
        programs, times = (self.plain, self.probe), ([], [])
        for turn in turns(count):
            for k in turn:
                times[k].append(int(run([programs[k], "recover", disk])[1]))
        disk.unlink()
        self.report(f"recovery of {pages} pages, empty journal", times[1], times[0])

    def recovery(self):
        for pages in PAGES:
            self.recoveries(pages, RECOVERIES)

    def large(self):
        """Disks of the most pages: how they are made, and the rest as of smaller ones."""
        pages = LARGEST
        self.makings(pages)
        disks = [self.format_disk(f"checkpoint_{k}.disk", pages) for k in (0, 1)]
        self.alternate(f"checkpoint of {pages} pages", "checkpoint", disks, CHECKPOINTS, LARGE_ROUNDS)
        disks = [self.stores_disk(f"changed_{k}.disk", pages) for k in (0, 1)]
        self.alternate(f"checkpoint of 4 changed pages of {pages}", "changed", disks, CHANGES, LARGE_ROUNDS)
        self.recoveries(pages, LARGE_ROUNDS)

    def makings(self, pages):
        """Disks that are made, and as many zeros that are written, in turns."""
        disk = self.format_disk("large.disk", pages)
        length, times = disk.stat().st_size, ([], [])
        makers = (lambda: self.zeros(disk.name, length)), (lambda: self.format_disk(disk.name, pages))
        for turn in turns(LARGE_ROUNDS):
            for k in turn:
                disk.unlink()
                began = time.perf_counter()
                makers[k]()
                times[k].append(time.perf_counter() - began)
        disk.unlink()
        self.report(f"making of a disk of {pages} pages", times[1], times[0], "s")

    def zeros(self, name, length):
        """Writes as many zeros, a mebibyte at once, and syncs them."""
        with open(self.folder / name, "wb", buffering=0) as file:
            for at in range(0, length, 1 << 20):
                file.write(bytes(min(1 << 20, length - at)))
            os.fsync(file.fileno())

    def steps_of_guest(self):
        return steps_told(run([self.probe, "run", self.image, "64", "1", "65535"])[1])

    def full_disk(self, name, pages, journal):
        """A disk whose journal is full of Runs that make all steps of the guest, and how many steps each has at most."""
        disk = self.format_disk(name, pages, journal)
        batches = journal // (4 * RUNS + 3)
        most = -(-self.steps_of_guest() // (batches * RUNS))
        run([self.ckrt, "run", disk], "place 0 1\ncommit\n" + (f"run 0 {most}\n" * RUNS + "commit\n") * batches)
        return disk, most

    def first_reply(self, disk):
        """The seconds from the start of a run to its first reply."""
        start = time.perf_counter()
        with lives.service(self.ckrt, disk, text=True) as child:
            lives.feed(child, ["commit"])
            wait_for_ack(child)
            seconds = time.perf_counter() - start
            child.stdin.close()
        return seconds

    def bytes_and_steps(self, disk, pages, most):
        """The seconds of reading the disk's bytes and of the machine alone with such Runs."""
        start = time.perf_counter()
        disk.read_bytes()
        run([self.probe, "run", self.image, str(pages), "1", str(most)])
        return time.perf_counter() - start

    def power_on(self):
        disk, most = self.full_disk("power_on.disk", 64, JOURNAL)
        ours, base = [], []
        for _ in range(POWER_ONS):
            base.append(self.bytes_and_steps(disk, 64, most))
            ours.append(self.first_reply(disk))
        disk.unlink()
        self.report("power on to the first reply, full journal of 1,048,576 bytes", ours, base, "s")

    def crowded_disk(self, name, pages):
        """A disk that was saved when each thread of the crowd had begun."""
        disk = self.format_disk(name, pages, image=self.crowd)
        run([self.ckrt, "run", disk], "auto 0 65535\n" * TURNS + "commit\ncheckpoint\n")
        listing = lives.listing(self.ckrt, disk)
        if [listing.count(f"\n{kind} ") for kind in ("thread", "wait", "mutex")] != [64, 61, 201]:
            sys.exit("the crowd isn't there")
        return disk

    def inspect(self):
        disks = {"a program that hasn't begun": self.format_disk("inspect_0.disk", 1_024),
                 "64 threads, 61 waits and 201 mutexes": self.crowded_disk("inspect_1.disk", 1_024)}
        for program, disk in disks.items():
            words, times = (["run", disk], ["inspect", disk]), ([], [])
            for turn in turns(RECOVERIES):
                for k in turn:
                    start = time.perf_counter()
                    run([self.ckrt, *words[k]])
                    times[k].append(time.perf_counter() - start)
            disk.unlink()
            self.report(f"inspect of 1024 pages, {program}", times[1], times[0], "s")

    def resident(self):
        """The resident KiB of a run with 1,024 pages after checkpoints: of the process alone, and with what it maps."""
        disk = self.format_disk("resident.disk", 1_024)
        with lives.service(self.ckrt, disk, text=True) as child:
            lives.feed(child, ["place 0 1", "run 0 65535", "commit", "checkpoint", "checkpoint"])
            for _ in range(3):
                wait_for_ack(child)
            alone, mapped = resident(child.pid)
            child.stdin.close()
        disk.unlink()
        note("checkpoint", "resident after checkpoints, process alone", "KiB", alone, MAPPED_LIMIT, ("", alone / MAPPED_LIMIT, ""))
        note("checkpoint", "resident after checkpoints, with program and C library", "KiB", mapped, MAPPED_LIMIT, ("", mapped / MAPPED_LIMIT, ""))
        print(f"resident with 1,024 pages after checkpoints: {alone} KiB, with program and C library {mapped} KiB (4 MiB and 1.25 MiB: {MAPPED_LIMIT})")

    def report(self, what, ours, base, unit="ns"):
        """Prints the medians, and the median of the rounds' ratios with its quartiles, and notes them."""
        ratios = ratios_of(ours, base)
        note("checkpoint", what, unit, statistics.median(ours), statistics.median(base), ratios)
        low, middle, high = ratios
        scale, shown = (1e3, "us") if unit == "ns" else (1e-3, "ms")
        print(f"{what}: base {statistics.median(base) / scale:.1f} {shown}, ckrt {statistics.median(ours) / scale:.1f} {shown}, "
              f"ratio {middle:.3f} ({low:.3f} to {high:.3f})", flush=True)


JOBS = {"checkpoints": Bench.checkpoints, "changed": Bench.changed, "recorded": Bench.recorded, "recovery": Bench.recovery, "large": Bench.large,
        "power-on": Bench.power_on, "resident": Bench.resident, "inspect": Bench.inspect}


def main():
    bench = Bench(*sys.argv[1:2] or ".")
    for job in sys.argv[2:] or JOBS:
        JOBS[job](bench)
