"""Stops a command before one of its system calls, by strace."""
import re
import subprocess
import tempfile
from typing import NamedTuple

WRITE, SYNC = "pwrite64", "fdatasync"
CALL = re.compile(r'^(\w+)\(\d+<([^>]*)>(?:, "[^"]*"(?:\.\.\.)?, (\d+), (\d+))?\) += ')  # strace fills a short line with spaces


class Call(NamedTuple):
    """A write at an offset, or a sync: its name, the path of its file, and a write's length and offset."""

    name: str
    path: str
    length: int | None
    offset: int | None


def calls_of(words):
    """The writes at offsets and the syncs that a command makes, in order."""
    with tempfile.NamedTemporaryFile("r", encoding="utf-8") as log:
        strace = ["strace", "-y", "-s", "0", "-e", f"trace={WRITE},{SYNC}", "-o", log.name]
        subprocess.run([*strace, *words], check=True, capture_output=True)
        found = [CALL.match(line) for line in log]
    return [Call(*call.groups()[:2], *(number and int(number) for number in call.groups()[2:])) for call in found if call]


def number_of(calls, index):
    """How many calls of its name there are up to that at an index."""
    return sum(call.name == calls[index].name for call in calls[:index + 1])


def stop_before(words, name, number):
    """Runs a command, which is killed where it would make the call of this name and number, counted from 1."""
    strace = ["strace", "-o", "/dev/null", "-e", f"trace={name}", "-e", f"inject={name}:signal=KILL:when={number}"]
    subprocess.run([*strace, *words], check=False, capture_output=True)
