"""Lives of the program: drives and services, from their start to their end or their kill. All times are seconds."""
import itertools
import re
import subprocess
import time
from typing import NamedTuple

ENOUGH = 5  # the status of a drive whose --events are used up


class End(NamedTuple):
    """How a life ended: its status, or None where it was killed; what it printed; and what it said on standard error."""

    status: int | None
    printed: bytes
    said: bytes


def live(words, seconds=None):
    """One life, which is killed behind so many seconds, if it hasn't ended by then."""
    with subprocess.Popen(words, stdin=subprocess.DEVNULL, stdout=subprocess.PIPE, stderr=subprocess.PIPE) as process:
        try:
            printed, said = process.communicate(timeout=seconds)
        except subprocess.TimeoutExpired:
            process.kill()
            return End(None, *process.communicate())
        return End(process.returncode, printed, said)


def moments(chance, shortest, longest, kills):
    """Draws, for one life behind the other, how long it may last: evenly from the shortest time to the longest.

    The longest time grows by itself with each so many kills, so that a busy machine gets to the end too.
    """
    for number in itertools.count():
        yield chance.uniform(shortest, longest * (1 + number / kills))


def moment_behind_start(chance, start, longest, power=1):
    """Draws how long a service may last that needs so long for its start: some are killed within that, some up to so long behind it.

    With a greater power most are killed early.
    """
    return chance.random() * 2 * start + chance.random() ** power * longest


def start_of(ckrt, disk):
    """How long a service takes from its start to its end where it reads no line."""
    began = time.monotonic()
    subprocess.run([ckrt, "run", disk], stdin=subprocess.DEVNULL, check=True, capture_output=True)
    return time.monotonic() - began


def service(ckrt, disk, **how):
    """A service of a disk, with pipes for its lines and its replies; `how` are further words of Popen."""
    return subprocess.Popen([ckrt, "run", disk], stdin=subprocess.PIPE, stdout=subprocess.PIPE, **how)


def feed(process, lines):
    """Writes lines to a service, in bytes or text as it was begun. It raises BrokenPipeError where that has ended."""
    text = "".join(f"{line}\n" for line in lines)
    process.stdin.write(text if hasattr(process.stdin, "encoding") else text.encode())
    process.stdin.flush()


def replies(ckrt, disk, lines):
    """What a service prints that is given these lines and ends behind them. It raises CalledProcessError where its status isn't 0."""
    text = "".join(f"{line}\n" for line in lines)
    return subprocess.run([ckrt, "run", disk], input=text, capture_output=True, text=True, check=True).stdout.splitlines()


def listing(ckrt, disk, *words):
    """What `ckrt inspect` shows of a disk. It raises CalledProcessError where that is none, or is locked."""
    return subprocess.run([ckrt, "inspect", disk, *map(str, words)], check=True, stdout=subprocess.PIPE, text=True).stdout


def pcs_listed(ckrt, disk, *words):
    """The pcs of the threads of a listing, by their ids."""
    found = re.findall(r"^thread (\d+) \w+ (?:ready|blocked) pc (\w+)", listing(ckrt, disk, *words), re.MULTILINE)
    return {int(thread): int(pc, 16) for thread, pc in found}


def events_of(ckrt, disk):
    """How many events a disk recovers to."""
    first, count = listing(ckrt, disk).split()[:2]
    assert first == "events", first
    return int(count)
