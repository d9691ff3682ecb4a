"""Runs the proved journal and its plain twin alternating, and prints medians.

Word: the folder of the file that is appended to (the present one, if none).

Appends, to a file of 1,048,576 bytes: the median of all appends of each program, and the ratio of the two programs' medians in
each round, of which the median and the quartiles are printed. A round takes a few milliseconds, so that a disk that is slow for
a while is slow for both. Decoding: the medians of all readings of a full journal in memory.
"""
import re
import statistics
import sys
from pathlib import Path

from common import found, make_zeros, plain, ratios_of, run, turns
from results import note

ROUNDS = 60
APPENDS = 12
# The first appends to a file that was just made are slow in both, and not counted.
WARM_UP = 2
READINGS = 5
SIZE = 1_048_576


def append_times(program, path, size):
    """The nanoseconds of each append to a new file, and the file's bytes after them."""
    make_zeros(path, SIZE)
    text = run([program, "append", path, str(size), str(WARM_UP + APPENDS)])[1]
    held = path.read_bytes()
    path.unlink()
    return [int(word) for word in text.split()[WARM_UP:]], held


def appends(programs, folder, size):
    """The median microseconds of an append of at most `size` bytes of events for each program, and the rounds' ratios."""
    times, medians = ([], []), ([], [])
    for turn in turns(ROUNDS):
        taken = {}
        for k in turn:
            taken[k] = append_times(programs[k], folder / f"journal_{k}.img", size)
            times[k].extend(taken[k][0])
        if taken[0][1] != taken[1][1]:
            sys.exit("the two journals differ")
        for k in turn:
            medians[k].append(statistics.median(taken[k][0]))
    return [statistics.median(t) / 1e3 for t in times], ratios_of(medians[1], medians[0])


def decoding(programs):
    """The median nanoseconds of reading and of decoding a full journal for each program, and its count of events."""
    times = [([], []), ([], [])]
    said = ["", ""]
    for turn in turns(ROUNDS):
        for k in turn:
            said[k], text = run([programs[k], "decode", str(READINGS)])
            for reading, rest in re.findall(r"reading (\d+) decoding (\d+)", text):
                times[k][0].append(int(reading))
                times[k][1].append(int(rest))
    if said[0] != said[1]:
        sys.exit("the two count other events")
    return [[statistics.median(t) for t in pair] for pair in times], int(said[0].split()[1])


def main():
    folder, programs = Path(*sys.argv[1:2] or "."), [plain("journal"), *found("ckrt_bench_probe")]
    for size in (7, 4096):
        (base, ours), (low, middle, high) = appends(programs, folder, size)
        note("journal", f"append of at most {size} bytes", "us", ours, base, (low, middle, high))
        print(f"append of at most {size} bytes: plain {base:.1f} us, proved {ours:.1f} us, ratio {middle:.3f} ({low:.3f} to {high:.3f})")
    ((_, base), (reading, rest)), events = decoding(programs)
    print(f"{events} events: plain {events / base * 1e3:.0f} million a second")
    print(f"proved: read_chain {events / reading * 1e3:.0f}, decode_events and its iterator {events / rest * 1e3:.0f}, both {events / (reading + rest) * 1e3:.0f}")
    note("journal", "reading and decoding an event", "ns", (reading + rest) / events, base / events)
    print(f"both beside the plain loop: {(reading + rest) / base:.2f} times its time")
