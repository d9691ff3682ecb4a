"""What the benches have in common, beside what they share with the tests: the programs, and what they are measured beside.

`disks`, `lives`, `programs` and the rest of `shared` come from `tests/shared`, which this puts on the path.
"""
import os
import re
import statistics
import subprocess
import sys
from pathlib import Path

BENCH = Path(__file__).resolve().parent
sys.path.insert(0, str(BENCH.parent / "tests"))
from shared import disks, programs  # noqa: E402

GUESTS = BENCH / "guests"
MADE = BENCH / "out"


def plain(name):
    """The path of bench/plain_NAME.rs as a program, which is compiled anew. It raises CalledProcessError where rustc refuses it."""
    MADE.mkdir(exist_ok=True)
    program = MADE / f"plain_{name}"
    subprocess.run(["rustc", "--edition", "2021", "-O", "-o", program, BENCH / f"plain_{name}.rs"], check=True)
    return program


def guest(name):
    """The path of the image of a guest of bench/guests."""
    return GUESTS / f"{name}.bin"


def run(command, lines=""):
    """What a command writes to standard output, and to standard error. It raises CalledProcessError where its status isn't 0."""
    done = subprocess.run(command, input=lines, capture_output=True, check=True, text=True)
    return done.stdout, done.stderr


def sync(path):
    """Makes the bytes of a file durable, so that nothing of them is left to be written while something is measured."""
    with open(path, "rb") as file:
        os.fsync(file.fileno())


def make_zeros(path, size):
    """Makes a file of so many zeros, durably."""
    Path(path).write_bytes(bytes(size))
    sync(path)


def make_disk(ckrt, path, image, **sizes):
    """Makes a disk of an image, in place of what is there, durably, and gives its path."""
    disk = disks.make(ckrt, path, image, **sizes)
    sync(disk)
    return disk


def turns(rounds):
    """For each round, which of two is measured first and which second: each is first in every other round."""
    return [(0, 1) if number % 2 == 0 else (1, 0) for number in range(rounds)]


def ratios_of(ours, base):
    """The lower quartile, the median and the upper quartile of the rounds' ratios."""
    return statistics.quantiles([mine / other for mine, other in zip(ours, base)], n=4)


def steps_told(said):
    """The steps that a run of ckrt_bench_probe tells."""
    return int(re.search(r"steps (\d+)", said)[1])


def wait_for_ack(child):
    """Reads replies of a service up to the next acknowledgement, of text."""
    while not child.stdout.readline().startswith("ack"):
        pass


def resident(process):
    """The KiB of memory that a process has resident: of itself alone, and the most it ever had with its program and the C library."""
    status = Path(f"/proc/{process}/status").read_text(encoding="utf-8")
    return [int(re.search(name + r":\s+(\d+) kB", status)[1]) for name in ("RssAnon", "VmHWM")]


def found(*names):
    """The paths of these programs."""
    return [programs.found(name) for name in names]
