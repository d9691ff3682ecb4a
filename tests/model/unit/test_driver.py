"""The driver on programs made of the model: it finds nothing on the right one, and each wrong one."""
import os
import platform
import sys
import tempfile
import unittest
from collections import Counter
from pathlib import Path

from cases.kinds import case_of
from compare import first_difference
from model.switches import SWITCHES, switched

MODEL = Path(__file__).resolve().parents[1]
KINDS_WITH_KEYS = {"lists": 2, "fates": 2, "listings": 3, "lives": 2, "cuts": 2}
KINDS_OF_DRIVES = {"drives": 2, "inputs": 2, "mixed": 3, "rounds": 2}
KINDS_WITH_SCHEDULES = {"schedules": 6, "drives": 1, "inputs": 2, "mixed": 1}
KINDS = {"lists": 4, "fates": 4, "parts": 3, "listings": 3, "lives": 2, "cuts": 8}
SHORT_HISTORIES = [2, 4, 7, 22, 23]
CALLS_FOUND_BY = [("without ends", 2), ("backward", 2), ("short-sighted", 13)]
# Programs are started by the thousand: what they import is kept compiled, beside them, and they are started without what a site adds.
COMPILED = tempfile.TemporaryDirectory()
FOUND_BY = [("without a sync", "lists"), ("split", "lists"), ("late", "lists"), ("short", "parts"), ("again", "fates"),
            ("hopeful", "fates"), ("without a sync", "cuts")]
# With a seed that finds it, which is tried first.
DRIVES_FOUND_BY = [("reads anything", "inputs", 2), ("padding", "inputs", 2), ("silent", "inputs", 2), ("silent", "mixed", 2), ("early", "mixed", 2),
                   ("forgetful", "mixed", 1), ("obedient", "mixed", 14), ("trusting", "mixed", 3), ("any output", "mixed", 5),
                   *[(which, "rounds", 14) for which in ("owner of an event", "without the tick", "63 owners", "empty harts alone", "even if it waits",
                                                         "without owners", "unfolded", "undrawn", "drawn of 63")]]


SHORT_KEPT = [11, 26]
KEPT_FOUND_BY = [("without the last", 38), ("the last again", 38), ("uncompared", 26), ("with a gap", 6), ("anywhere", 16), ("in zeros alone", 11),
                 ("from 0 on", 26), ("begun anew", 38), ("short", 11)]
PARTS_FOUND_BY = [("another end", 38), ("to the end", 38), *[(which, 26) for which in ("first left out", "first state", "counted from 0", "two areas")], ("part anywhere", 38)]
SHORT_DRIVEN = [4, 10]
DRIVEN_FOUND_BY = [("unkeeping", 2), ("skipping", 2), ("doubling", 13), ("anew", 15), ("unread", 15), ("writing", 10), ("uncomparing", 15), ("begins anywhere", 10)]
SCHEDULES_FOUND_BY = [("obliging", "schedules", 1), ("unnoted", "schedules", 1), ("before input", "inputs", 2), ("over the old", "schedules", 1),
                      ("first alone", "schedules", 1), ("silent", "schedules", 1)]


def program(folder, which, **switches):
    """A file that the system starts."""
    path = Path(folder) / which.replace(" ", "_")
    path.write_text(f"#!{os.path.realpath(sys.executable)} -IS\nimport sys\n"
                    f"sys.pycache_prefix, sys.dont_write_bytecode = {COMPILED.name!r}, False\nsys.path.insert(0, {str(MODEL)!r})\n"
                    f"sys.argv.insert(1, {which!r})\nfrom unit import stand_in\nstand_in.main(**{switches})\n")
    path.chmod(0o755)
    return path


@unittest.skipUnless((sys.platform, platform.machine()) == ("linux", "x86_64"), "traces Linux on x86-64 alone")
class Driver(unittest.TestCase):
    def setUp(self):
        folder = tempfile.TemporaryDirectory()
        self.addCleanup(folder.cleanup)
        self.folder = Path(folder.name)

    def difference(self, which, kind, seed):
        case = case_of(kind, seed)
        if kind == "lives":
            case.damaged = bytes(case.disk())
        return first_difference(program(self.folder, which, **vars(SWITCHES)), case, self.folder, Counter(), lambda count: None)

    def test_right(self):
        self.finds_nothing(KINDS)

    def test_right_with_keys(self):
        with switched(keys=True):
            self.finds_nothing(KINDS_WITH_KEYS)

    def test_right_with_long_runs(self):
        with switched(keys=True, long_runs=True):
            self.finds_nothing({"lists": 2, "fates": 2, "listings": 2, "lives": 2})

    def test_right_with_programs(self):
        """Disks that note their program, of both sides or of one alone."""
        with switched(keys=True, long_runs=True, programs=True):
            self.finds_nothing({"lists": 1, "listings": 2, "disks": 3})
            case = case_of("listings", 1)
            path = program(self.folder, "right", keys=True, long_runs=True)
            self.assertIsNotNone(first_difference(path, case, self.folder, Counter(), lambda count: None))

    def test_right_drives(self):
        with switched(keys=True, long_runs=True):
            self.finds_nothing(KINDS_OF_DRIVES)

    def test_right_drives_with_schedules(self):
        """Disks that note the schedule of their drive, of both sides or of one alone."""
        with switched(keys=True, long_runs=True, programs=True, schedules=True):
            self.finds_nothing(KINDS_WITH_SCHEDULES)
            path = program(self.folder, "right", keys=True, long_runs=True, programs=True)
            self.assertIsNotNone(first_difference(path, case_of("schedules", 1), self.folder, Counter(), lambda count: None))

    def test_wrong_schedules(self):
        with switched(keys=True, long_runs=True, programs=True, schedules=True):
            for which, kind, first in SCHEDULES_FOUND_BY:
                with self.subTest(which=which, kind=kind):
                    self.assertTrue(any(self.difference(which, kind, seed) for seed in (first, *range(1, 25))))

    def test_wrong_drives(self):
        with switched(keys=True, long_runs=True):
            for which, kind, first in DRIVES_FOUND_BY:
                with self.subTest(which=which, kind=kind):
                    self.assertTrue(any(self.difference(which, kind, seed) for seed in (first, *range(1, 25))))

    def test_calls(self):
        with switched(keys=True, long_runs=True):
            self.find_wrong("histories", SHORT_HISTORIES, CALLS_FOUND_BY, tries=0)

    def find_wrong(self, kind, short, found_by, tries):
        """Of short cases of a kind the right program has no difference, and each wrong one has: by its first seed, or by one of so many others."""
        for seed in short:
            self.assertIsNone(self.difference("right", kind, seed))
        for which, first in found_by:
            with self.subTest(which=which):
                self.assertTrue(any(self.difference(which, kind, seed) for seed in (first, *range(1, tries + 1))))

    def test_histories(self):
        with switched(keys=True, long_runs=True, programs=True, schedules=True):
            self.find_wrong("beside", SHORT_KEPT, KEPT_FOUND_BY + PARTS_FOUND_BY, tries=40)
            self.find_wrong("kept", SHORT_DRIVEN, DRIVEN_FOUND_BY, tries=16)

    def test_keys_of_one_side(self):
        """The program has keys and the model none, or the other way round."""
        for here in (False, True):
            with switched(keys=here):
                case = case_of("listings", 1)
                path = program(self.folder, "right", keys=not here)
                self.assertIsNotNone(first_difference(path, case, self.folder, Counter(), lambda count: None))

    def finds_nothing(self, kinds):
        for kind, count in kinds.items():
            for seed in range(1, count + 1):
                with self.subTest(kind=kind, seed=seed):
                    self.assertIsNone(self.difference("right", kind, seed))

    def test_wrong(self):
        for which, kind in FOUND_BY:
            with self.subTest(which=which, kind=kind):
                self.assertTrue(any(self.difference(which, kind, seed) for seed in range(1, 33)))
