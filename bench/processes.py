"""How long a process takes: by the clock, and of the processor's time."""
import resource
import subprocess
import time
from typing import NamedTuple


class Spent(NamedTuple):
    """Seconds by the clock, and of processor time, the process's own and the system's for it."""

    clock: float
    processor: float


def processor_seconds():
    """What all processes took that this one has begun and waited for."""
    used = resource.getrusage(resource.RUSAGE_CHILDREN)
    return used.ru_utime + used.ru_stime


def timed(command, **streams):
    """Runs a command to its end: what it came to, and what it took from its start on."""
    before, start = processor_seconds(), time.perf_counter()
    done = subprocess.run(command, check=True, **streams)
    return done, Spent(time.perf_counter() - start, processor_seconds() - before)
