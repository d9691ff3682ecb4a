"""Runs two programs on the same guests, alternating, and prints the best rate of each and their ratio.

Then how long the guests that have C sources take, here, by qemu-user where it is installed, and as programs of the host; of
those that compute doubles also by Python, and how many times the host's time they take here. At the end, without names of
guests: what a call costs. Words: names of guests of bench/guests (all, if none).
"""
import re
import shutil
import statistics
import subprocess
import sys

import same_sources
from common import GUESTS, found, guest, plain
from processes import timed
from results import note

ROUNDS = 7
# Guests with threads, and their harts: the plain interpreter has no threads, so they have no ratio.
THREADED = {"locks-4": 4, "locks-crowded": 4, "matmul-big": 4, "plain-4": 4}
# Guests whose ratio isn't one of plain computation: it stands apart from the mean.
STORING = ("own-page-stores", "scattered-stores")
# Guests that multiply and divide, whose steps are in the compiler's library: the mean of their ratios stands apart.
NUMERIC = ("doubles-big", "gcd-big", "matrix-big")
# Guests that compute doubles by the kit's arithmetic, and how many rounds each makes. The plain interpreter doesn't run them.
DOUBLES = {"nbody-big": 20_000, "lu-big": 60, "mandelbrot-big": 1, "heat-big": 3_400}
# The host is too fast for so few: its time is a share of that of so many times as many rounds.
LONGER = 100
# This one never ends: it is for checkpoints alone.
ENDLESS = ("stores-4",)
# Two calls in a round, eight rounds' worth of steps beside them: see make_guests.py.
CALLS = 2 * 4 * 400_000


def run_of(command):
    """The console, the steps and the processor time of one run."""
    done = subprocess.run(command, capture_output=True, check=False)
    text = done.stderr.decode()
    if found := re.search(r"steps (\d+) nanoseconds (\d+)", text):
        return done.stdout, int(found[1]), int(found[2]) / 1e9
    found = re.search(r"steps (\d+) seconds ([\d.]+)", text)
    return done.stdout, int(found[1]), float(found[2])


def rate_of(command):
    """The console and the steps a second of processor time of one run."""
    console, steps, seconds = run_of(command)
    return console, steps / seconds


def pages_of(path):
    """How many pages a guest runs on."""
    return "1024" if "scattered" in path.name else "64"


def machine_rate(machine, path, harts):
    """The console and the rate of one run on the machine, whether the guest ends or not."""
    return rate_of([machine, "run", path, pages_of(path), str(harts), "65535"])


def compare(interpreter, machine, path):
    """The best rates of both on a guest of one thread, alternating."""
    plain_rates, machine_rates = [], []
    for _ in range(ROUNDS):
        said, rate = rate_of([interpreter, path, pages_of(path)])
        plain_rates.append(rate)
        put, rate = machine_rate(machine, path, 1)
        machine_rates.append(rate)
        if said != put:
            sys.exit(f"{path}: the consoles differ")
    return max(plain_rates), max(machine_rates)


def seconds_of(machine, path, steps):
    """The least processor time of a guest with threads, by its rate."""
    return steps / max(machine_rate(machine, path, 4)[1] for _ in range(ROUNDS))


def calls(machine):
    """What a lock or an unlock costs, in plain instructions of the same run."""
    steps = 4 * 400_000 * 16
    alone = seconds_of(machine, guest("plain-4"), steps)
    print(f"a plain instruction: {alone / steps * 1e9:.1f} ns")
    for name in ("locks-4", "locks-crowded"):
        cost = (seconds_of(machine, guest(name), steps) - alone) / CALLS
        note("machine", f"a call in {name}", "ns", cost * 1e9, alone / steps * 1e9)
        print(f"a call in {name}: {cost * 1e9:.0f} ns, {cost * steps / alone:.0f} plain instructions")


def least_seconds(words, console):
    """The least processor time of runs that put this console, without that of starting a process; nothing without words."""
    if not words:
        return None
    runs = [timed(words, capture_output=True) for _ in range(ROUNDS)]
    if any(done.stdout.strip() != console.strip() for done, _ in runs):
        sys.exit(f"{words[-1]}: the consoles differ")
    start = min(timed(["true"])[1].processor for _ in range(ROUNDS))
    return max(min(spent.processor for _, spent in runs) - start, 1e-6)


def shown(seconds):
    """Milliseconds, or a dash for nothing."""
    return "-" if seconds is None else f"{seconds * 1e3:.1f}"


def same_programs(machine, names):
    """How long guests with C sources take, beside the same sources by qemu-user and as programs of the host."""
    print(f"{'guest':16} {'Msteps':>8} {'machine ms':>11} {'qemu ms':>9} {'host ms':>9} {'times host':>11}")
    for name in names:
        command = [machine, "run", guest(name), "64", "1", "65535"]
        runs = [run_of(command) for _ in range(ROUNDS)]
        console, steps, ours = runs[0][0], runs[0][1], min(seconds for _, _, seconds in runs)
        qemu = least_seconds(same_sources.on_qemu(name), console)
        host = least_seconds(same_sources.on_host(name), console)
        times = "-" if host is None else f"{ours / host:.0f}"
        print(f"{name:16} {steps / 1e6:8.0f} {shown(ours):>11} {shown(qemu):>9} {shown(host):>9} {times:>11}")
        for what, other in (("qemu-user", qemu), ("the host", host)):
            if other is not None:
                note("machine", f"{name} beside {what}", "s", ours, other, ("", ours / other, ""))


def host_seconds(name):
    """The least processor time of a guest's source as a program of the host, by a run of many more rounds; nothing without a compiler."""
    words = same_sources.on_host(name, DOUBLES[name] * LONGER)
    return words and min(timed(words, capture_output=True)[1].processor for _ in range(ROUNDS)) / LONGER


def doubles(machine, name, objects):
    """How long a guest that computes doubles takes here, by qemu-user, by Python and on the host, all with the same bits."""
    runs = [run_of([machine, "run", guest(name), "64", "1", "65535"]) for _ in range(ROUNDS)]
    console, ours = runs[0][0], min(seconds for _, _, seconds in runs)
    qemu = least_seconds(same_sources.on_qemu(name, objects), console)
    python = least_seconds(same_sources.on_python(name), console)
    least_seconds(same_sources.on_host(name), console)
    host = host_seconds(name)
    for what, other in (("qemu-user", qemu), ("Python", python), ("the host", host)):
        if other is not None:
            note("machine", f"{name} beside {what}", "s", ours, other, ("", ours / other, ""))
    times = "-" if host is None else f"{ours / host:.0f}"
    print(f"{name:16} {runs[0][1] / 1e6:8.0f} {shown(ours):>11} {shown(qemu):>9} {shown(python):>10} {shown(host):>9} {times:>11}")
    return host and ours / host


def all_doubles(machine, names):
    """The guests that compute doubles, and the mean of how many times the host's time they take."""
    if not names:
        return
    print(f"{'guest':16} {'Msteps':>8} {'machine ms':>11} {'qemu ms':>9} {'Python ms':>10} {'host ms':>9} {'times host':>11}")
    objects = same_sources.kit_objects() if shutil.which(same_sources.LINUX[0]) else []
    times = [doubles(machine, name, objects) for name in names]
    mean("geometric mean of the times of the host's time, of guests that compute doubles", [one for one in times if one])


def mean(what, ratios):
    """Tells the geometric mean of these numbers, if there are any."""
    if ratios:
        print(f"{what}: {statistics.geometric_mean(ratios):.2f}")


def main():
    interpreter, (machine,) = plain("interpreter"), found("ckrt_bench_probe")
    stored = sorted(file.stem for file in GUESTS.glob("*.bin"))
    names = sys.argv[1:] or [name for name in stored if name not in ENDLESS]
    print(f"{'guest':16} {'plain Msteps/s':>15} {'machine Msteps/s':>17} {'ratio':>6}")
    ratios, numeric = [], []
    for name in names:
        path = guest(name)
        if name in DOUBLES:
            continue
        if name in THREADED:
            rate = max(machine_rate(machine, path, THREADED[name])[1] for _ in range(ROUNDS))
            print(f"{name:16} {'-':>15} {rate / 1e6:17.0f} {'-':>6}")
            continue
        base, ours = compare(interpreter, machine, path)
        if name in NUMERIC:
            numeric.append(ours / base)
        elif name not in STORING:
            ratios.append(ours / base)
        note("machine", name, "steps/s", ours, base, ("", ours / base, ""))
        print(f"{name:16} {base / 1e6:15.0f} {ours / 1e6:17.0f} {ours / base:6.2f}")
    mean("geometric mean of the ratios", ratios)
    mean("geometric mean of the ratios of guests that multiply and divide", numeric)
    same_programs(machine, [name for name in names if name in NUMERIC])
    all_doubles(machine, [name for name in names if name in DOUBLES])
    if not sys.argv[1:]:
        calls(machine)
