"""Runs the saved tables of three programs through the proved code and its plain twin, alternating, and prints medians.

The tables are those of make_tables.py: a program that hasn't begun, one with 64 threads and 100 waits and objects, and the
longest. Each run of a program decodes them and encodes what it got some times; the first times warm it up. A round has a run
of each; the median of its times goes into the round's ratio, and of these the median and the quartiles are printed.
"""
import re
import statistics

import make_tables
from common import MADE, found, plain, ratios_of, run, turns
from results import note

ROUNDS = 41
TIMES = 25
WARM_UP = 5
STATES = {"fresh": "of a program that hasn't begun", "crowd": "of 64 threads and 100 waits and objects", "longest": "as long as they get"}
HARTS = "8"
JOBS = ("decoding", "encoding")


def times_of(program, path):
    """The median nanoseconds of decoding and of encoding in one run."""
    said = run([program, "save", path, HARTS, str(WARM_UP + TIMES)])[1]
    pairs = re.findall(r"decoding (\d+) encoding (\d+)", said)[WARM_UP:]
    return [statistics.median(int(time) for time in times) for times in zip(*pairs)]


def compare(programs, folder, state):
    path = folder / state
    times = ([], [])
    for turn in turns(ROUNDS):
        for k in turn:
            times[k].append(times_of(programs[k], path))
    for job, name in enumerate(JOBS):
        base, ours = ([pair[job] for pair in each] for each in times)
        ratios = ratios_of(ours, base)
        note("tables", f"{name} tables {STATES[state]}", "ns", statistics.median(ours), statistics.median(base), ratios)
        low, middle, high = ratios
        size = path.stat().st_size
        print(f"{name} {size} bytes of tables {STATES[state]}: plain {statistics.median(base) / 1e3:.1f} us, "
              f"proved {statistics.median(ours) / 1e3:.1f} us, ratio {middle:.3f} ({low:.3f} to {high:.3f})")


def main():
    programs, folder = [plain("tables"), *found("ckrt_bench_probe")], MADE / "tables"
    make_tables.make(folder)
    for state in STATES:
        compare(programs, folder, state)
