"""Measures `ckrt drive` on a disk in a file, alternating with the machine alone, and prints ratios.

Words: the folder of the disks (the present one, if none), and jobs (`steps`, `lines`, `instructions`, `fed`, `fed-instructions`,
`waits`, `history`, `history-instructions`; all, if none is named).

steps: guests driven to their ends with the defaults of a drive, commits and checkpoints and an output file included, on a disk of 64
pages, beside the machine alone with Runs of 65,535 steps; whole processes, by the clock and by processor time. A drive sleeps while the
disk syncs, the machine alone never does: where other programs want the processors, the clock tells how soon a sleeper gets one again, so the
processor time is what compares. lines: a guest driven, beside the same program that makes its steps by lines of `ckrt run`: so both have the
same loop at the same place. instructions: what a step more costs each of them in host instructions, which callgrind counts: a guest of
two lengths, so that what a process does once drops out. fed: a guest that adds up a million bytes of --input, which it reads one by one by getc, beside the machine alone, which is given the
same bytes by the same rule; whole processes. fed-instructions: what a byte more costs each of them in host instructions.
waits: a guest that sleeps 100 times for a year of ticks, the whole process, for each wait.
history: the guests of `steps`, by a drive that keeps a history beside one that keeps none; whole processes, by the clock and by processor
time. The history was begun before, since that is done once. history-instructions: what a step more costs each of them in host
instructions, and how many syncs each makes of the longer guest, which strace counts.
"""
import re
import statistics
import subprocess
import sys
from pathlib import Path

from common import found, guest, make_disk, ratios_of, run, steps_told, sync, turns
from processes import timed
from results import note
from shared.guests import adding_input, putting, sleeping
from shared.stops import SYNC, calls_of

LINES_GUEST = "nqueens-big"
LONG_RUNS = 100  # of a million steps each, in a batch
BATCHES = 2
GUESTS = ("nqueens-big", "pi-big", "primes-big", "sha256-big")
ROUNDS, WAIT_ROUNDS, WAITS = 25, 31, 100
YEAR = 365 * 86_400 * 1_000
# Bytes that a guest puts, and rounds of two steps before each: some 4 and 8 million steps.
PUT, BETWEEN = 20, (100_000, 200_000)
BETWEEN_WITH_HISTORY = 400_000, 1_200_000  # some 16 and 48 million steps: so the longer one has two commits more
JOURNAL = 1_048_576
RECORD = 4_096  # the bytes of the record of an input, behind those of a disk
# Bytes of an input, and of one to count the instructions of a byte more.
INPUT, LESS_INPUT = 1_000_000, 200_000


class Bench:
    def __init__(self, folder):
        self.ckrt, self.probe = found("ckrt", "ckrt_bench_probe")
        self.files = self.disk, self.output, self.image, self.input, self.history_file = [Path(folder) / f"drive.{it}" for it in ("disk", "output", "image", "input", "history")]

    def remove(self):
        for file in self.files:
            file.unlink(missing_ok=True)

    def make_disk(self, image):
        self.output.unlink(missing_ok=True)
        make_disk(self.ckrt, self.disk, image, journal=JOURNAL)

    def drive_words(self):
        return [self.ckrt, "drive", self.disk, "--output", self.output]

    def machine_words(self, image):
        return [self.probe, "run", image, "64", "1", "65535"]

    def driven(self, image):
        """What a whole drive took, and what it put."""
        self.make_disk(image)
        return self.driven_by(self.drive_words())

    def driven_by(self, words):
        """The same of a drive of the disk that was made, by these words."""
        spent = timed(words, stderr=subprocess.DEVNULL)[1]
        return spent, self.output.read_bytes()

    def machine(self, image):
        """What the machine alone took, what it put and how many steps it made."""
        done, spent = timed(self.machine_words(image), capture_output=True)
        return spent, done.stdout, steps_told(done.stderr.decode())

    def steps(self):
        for name in GUESTS:
            image, ours, base = guest(name), [], []
            for turn in range(ROUNDS):
                if turn % 2 == 0:
                    mine, put = self.driven(image)
                alone, console, count = self.machine(image)
                if turn % 2 == 1:
                    mine, put = self.driven(image)
                if put != console:
                    sys.exit(f"{name}: the outputs differ")
                ours.append(mine)
                base.append(alone)
            for part in ("processor", "clock"):
                rates = [[count / getattr(it, part) for it in spent] for spent in (ours, base)]
                self.report(f"steps, {name}, {part}", rates, "steps/s")

    def by_lines(self, image):
        """What the same program took with lines that make the guest's steps."""
        self.make_disk(image)
        lines = "place 0 1\n" + ("runlong 0 1000000\n" * LONG_RUNS + "commit\n") * BATCHES
        return timed([self.ckrt, "run", self.disk], input=lines.encode(), stdout=subprocess.DEVNULL)[1]

    def lines(self):
        image = guest(LINES_GUEST)
        count, ours, base = self.machine(image)[2], [], []
        for turn in range(ROUNDS):
            if turn % 2 == 0:
                ours.append(self.driven(image)[0])
            base.append(self.by_lines(image))
            if turn % 2 == 1:
                ours.append(self.driven(image)[0])
        rates = [[count / it.processor for it in spent] for spent in (ours, base)]
        self.report(f"steps, {LINES_GUEST}, beside lines of one program, processor", rates, "steps/s", "by lines")

    def count(self, words):
        """The host instructions of a process."""
        callgrind = ["valgrind", "--tool=callgrind", "--callgrind-out-file=/dev/null", *words]
        said = subprocess.run(callgrind, check=True, capture_output=True).stderr.decode(errors="replace")
        return int(re.search(r"Collected : (\d+)", said)[1])

    def instructions(self):
        counts = []
        for between in BETWEEN:
            self.image.write_bytes(putting(1, PUT, between))
            self.make_disk(self.image)
            counts.append((self.count(self.drive_words()), self.count(self.machine_words(self.image)), self.machine(self.image)[2]))
        ours, base, steps = (more - few for few, more in zip(*counts))
        note("drive", "host instructions of a step more", "instructions", ours / steps, base / steps, ("", base / ours, ""))
        print(f"a step more: machine alone {base / steps:.2f} host instructions, ckrt drive {ours / steps:.2f}, ratio {base / ours:.3f}")

    def make_fed_disk(self, length):
        """A disk whose guest reads so many bytes of input, and where it was given none yet."""
        self.image.write_bytes(adding_input())
        self.input.write_bytes(bytes(number * 7 & 0xFF for number in range(length)))
        self.make_disk(self.image)
        with open(self.disk, "r+b") as disk:
            disk.truncate(self.disk.stat().st_size + RECORD)
        sync(self.disk)
        return bytes([sum(self.input.read_bytes()) & 0xFF])

    def fed_words(self):
        return [*self.drive_words(), "--input", self.input]

    def fed_machine_words(self):
        return [self.probe, "feed", self.image, "64", "1", "65535", self.input]

    def fed_once(self, wanted):
        """What a whole drive with an input took."""
        spent = timed(self.fed_words(), stderr=subprocess.DEVNULL)[1]
        if self.output.read_bytes() != wanted:
            sys.exit("the drive with an input puts another sum")
        return spent

    def fed_machine(self, wanted):
        """What the machine alone took with the same input, and how many steps it made."""
        done, spent = timed(self.fed_machine_words(), capture_output=True)
        if done.stdout != wanted:
            sys.exit("the machine with an input puts another sum")
        return spent, steps_told(done.stderr.decode())

    def fed(self):
        ours, base = [], []
        for turn in range(ROUNDS):
            wanted = self.make_fed_disk(INPUT)
            if turn % 2 == 0:
                ours.append(self.fed_once(wanted))
            alone, count = self.fed_machine(wanted)
            base.append(alone)
            if turn % 2 == 1:
                ours.append(self.fed_once(wanted))
        for part in ("processor", "clock"):
            rates = [[count / getattr(it, part) for it in spent] for spent in (ours, base)]
            self.report(f"steps with {INPUT:,} bytes of input, {part}", rates, "steps/s")

    def fed_instructions(self):
        counts = []
        for length in (LESS_INPUT, INPUT):
            self.make_fed_disk(length)
            counts.append((self.count(self.fed_words()), self.count(self.fed_machine_words())))
        ours, base = ((more - few) / (INPUT - LESS_INPUT) for few, more in zip(*counts))
        note("drive", "host instructions of a byte of input more", "instructions", ours, base, ("", base / ours, ""))
        print(f"a byte of input more: machine alone {base:.1f} host instructions, ckrt drive {ours:.1f}, ratio {base / ours:.3f}")

    def words_on_new_disk(self, image, has_history):
        """The words of a drive of a new disk, whose history was begun, if it keeps one."""
        self.make_disk(image)
        if not has_history:
            return self.drive_words()
        self.history_file.unlink(missing_ok=True)
        run([self.ckrt, "history", self.history_file, "--disk", self.disk])
        return [*self.drive_words(), "--history", self.history_file]

    def history(self):
        for name in GUESTS:
            image, spent = guest(name), ([], [])
            wanted, count = self.machine(image)[1:]
            for order in turns(ROUNDS):
                for which in order:
                    taken, put = self.driven_by(self.words_on_new_disk(image, has_history=which == 0))
                    spent[which].append(taken)
                    if put != wanted:
                        sys.exit(f"{name}: the outputs differ")
            for part in ("processor", "clock"):
                rates = [[count / getattr(it, part) for it in one] for one in spent]
                self.report(f"steps with a history, {name}, {part}", rates, "steps/s", "without a history")

    def history_instructions(self):
        counts = []
        for between in BETWEEN_WITH_HISTORY:
            self.image.write_bytes(putting(1, PUT, between))
            both = [self.count(self.words_on_new_disk(self.image, has_history)) for has_history in (True, False)]
            counts.append((*both, self.machine(self.image)[2]))
        ours, base, steps = (more - few for few, more in zip(*counts))
        note("drive", "host instructions of a step more with a history", "instructions", ours / steps, base / steps, ("", base / ours, ""))
        syncs = [sum(call.name == SYNC for call in calls_of(self.words_on_new_disk(self.image, has_history))) for has_history in (True, False)]
        note("drive", "syncs of a drive with a history", "syncs", *syncs)
        print(f"a step more: without a history {base / steps:.3f} host instructions, with one {ours / steps:.3f}, ratio {base / ours:.4f}; syncs of a drive: {syncs[1]} and {syncs[0]}")

    def waits(self):
        self.image.write_bytes(sleeping(WAITS, YEAR))
        times = [self.driven(self.image)[0].clock / WAITS for _ in range(WAIT_ROUNDS)]
        low, middle, high = statistics.quantiles(times, n=4)
        note("drive", "a wait of a year", "s", middle)
        print(f"a wait of a year: {middle * 1e6:.0f} us ({low * 1e6:.0f} to {high * 1e6:.0f})")

    def report(self, what, rates, unit, beside="machine alone"):
        """Prints the medians, and the median of the rounds' ratios with its quartiles, and notes them."""
        ours, base = rates
        low, middle, high = ratios_of(ours, base)
        note("drive", what, unit, statistics.median(ours), statistics.median(base), (low, middle, high))
        print(f"{what}: {beside} {statistics.median(base) / 1e6:.0f} million a second, ckrt drive {statistics.median(ours) / 1e6:.0f}, "
              f"ratio {middle:.3f} ({low:.3f} to {high:.3f})", flush=True)


JOBS = {"steps": Bench.steps, "lines": Bench.lines, "instructions": Bench.instructions, "fed": Bench.fed, "fed-instructions": Bench.fed_instructions,
        "waits": Bench.waits, "history": Bench.history, "history-instructions": Bench.history_instructions}


def main():
    bench = Bench(*sys.argv[1:2] or ".")
    try:
        for job in sys.argv[2:] or JOBS:
            JOBS[job](bench)
    finally:
        bench.remove()
