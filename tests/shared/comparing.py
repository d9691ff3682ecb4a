"""Compares outputs and disks, and tells what differs."""
import contextlib
import sys
import tempfile
from pathlib import Path

SHOWN, ENDS = 300, 140  # characters of a value that are shown, and of each of its ends where it is longer
BEFORE, AROUND = 30, 120  # bytes that are shown before the first one that differs, and of all


class Failure(Exception):
    """What a test finds wrong, in words."""


@contextlib.contextmanager
def telling(test, *also):
    """Ends the process with status 1 where the test finds something wrong, and tells it behind the test's name.

    `also` are other exceptions that are told so.
    """
    try:
        yield
    except (Failure, *also) as failure:
        sys.exit(f"{test}: {failure}")


class Faults:
    """What comparisons find wrong, which is told together at the end."""

    def __init__(self, test):
        self.test, self.found = test, []

    def expect(self, what, got, want):
        """Two values have to be the same."""
        if got != want:
            self.add(f"{what}: wanted {want!r}, and found {got!r}")

    def expect_alike(self, what, got, want):
        """Two long texts, or lists of lines: the place where they differ is told, and what stands there."""
        if got != want:
            at = max(0, first_difference(got, want) - BEFORE)
            self.expect(f"{what}, from byte {at} on", got[at:at + AROUND], want[at:at + AROUND])

    def add(self, text):
        self.found.append(f"{self.test}: {text}")

    def tell(self, well):
        """Prints them, or what is told where nothing is wrong. Returns the status."""
        print("\n".join(self.found) or well)
        return 1 if self.found else 0


def run_checks(checks, ckrt, prefix):
    """Calls each with the program and an empty folder of its own."""
    for check in checks:
        with tempfile.TemporaryDirectory(prefix=prefix) as folder:
            check(ckrt, Path(folder))


def expect(what, got, want):
    """Two values have to be the same; else it raises Failure with both."""
    if got != want:
        shown = [text if len(text) < SHOWN else f"{text[:ENDS]} .. {text[-ENDS:]}" for text in (repr(got), repr(want))]
        raise Failure(f"{what}: {shown[0]} in place of {shown[1]}")


def expect_bytes(what, got, want):
    """Many bytes have to be the same; else it raises Failure with their numbers and the first place that differs."""
    if got != want:
        raise Failure(f"{what}: {len(got)} bytes in place of {len(want)}, which differ from byte {first_difference(got, want)} on")


def first_difference(one, other):
    """The first place where two byte strings differ, which is the length of the shorter one where that begins the other one."""
    shorter = min(len(one), len(other))
    if one[:shorter] == other[:shorter]:
        return shorter
    return next(at for at, (a, b) in enumerate(zip(one, other)) if a != b)
