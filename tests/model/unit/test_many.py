"""Hunts by many seeds, on a hunt that is made up: which disks and tables are right; what lies at a table's path; and what is drawn."""
import tempfile
import unittest
from collections import Counter
from pathlib import Path
from random import Random
from unittest.mock import patch

from cases.formats import SMALLEST
from cases.hunted import listed
from cases.many import TAKEN, Alone, ManyCase, difference_of_disks, difference_of_table, is_replaced, many_case
from model.hunts import Options, Row, line_of_kept, refusal_of_keep
from model.layout import MAKING, format_disk
from model.lines import serve_disk

ALONE = {1: Alone("deadlock", 9, 12, None), 2: Alone("exit 0, output 1", 3, 3, None), 4: Alone("deadlock", 4, 30, None)}
DEADLOCK = Row(2, 1, "deadlock")


def begun():
    disk = format_disk(SMALLEST, b"")
    serve_disk(disk, b"tick 1\ncommit\n")
    return bytes(disk)


class Folded:
    switches = 4


class Disks(unittest.TestCase):
    def difference(self, line, switches=4, text="deadlock", alone=None):
        """Of a disk with a run that has so many switches and comes to this."""
        folded = Folded()
        folded.switches = switches
        case = ManyCase(b"", range(1, 5), Options(16, 1, 500), None, "nothing", "nothing", None)
        with patch("cases.many.fold", lambda recording: folded), patch("cases.many.Recording", bytes), \
                patch("cases.many.text_of_outcome", lambda *words: text), tempfile.TemporaryDirectory() as folder:
            (Path(folder) / "kept").write_bytes(b"")
            return difference_of_disks(case, Path(folder), alone or ALONE, {"kept": DEADLOCK}, [line], Counter())

    def test_right(self):
        self.assertIsNone(self.difference(line_of_kept(4, "kept", 4, 30, 2)))
        self.assertIsNone(self.difference(line_of_kept(1, "kept", 9, 12), 9))
        self.assertIsNone(self.difference(line_of_kept(4, "kept", 6, 30, 2), 6))

    def test_wrong(self):
        for line, switches in [(line_of_kept(4, "kept", 4, 12, 2), 4), (line_of_kept(4, "kept", 4, 30), 4), (line_of_kept(1, "kept", 8, 12), 8),
                               (line_of_kept(2, "kept", 3, 3, 2), 3), (line_of_kept(4, "kept", 4, 30, 3), 4), (line_of_kept(4, "kept", 4, 30, 2), 5),
                               (line_of_kept(4, "kept", 4, None, 1), 4), (line_of_kept(4, "other", 4, 30, 2), 4), ("kept", 4),
                               (line_of_kept(3, "kept", 4, 30, 2), 4)]:
            self.assertIsNotNone(self.difference(line, switches), line)
        self.assertIsNotNone(self.difference(line_of_kept(4, "kept", 4, 30, 2), text="exit 0"))


class Tables(unittest.TestCase):
    def test_replaced(self):
        self.assertEqual({name for name, text in TAKEN.items() if is_replaced(text)}, {"nothing", "a table"})

    def difference(self, taken, beside, write):
        """Of a program that writes the table, or leaves it and says so."""
        def run(words, cwd, **how):
            place = cwd / words[-1]
            error = write(place, place.with_name(place.name + ".new"), "outcome 1: x\n")
            return type("Done", (), {"returncode": 9, "stdout": "outcome 1: x\n", "stderr": error})

        case = ManyCase(b"", range(1, 5), Options(16, 1, 500), None, taken, beside, None)
        with patch("cases.many.subprocess.run", run), tempfile.TemporaryDirectory() as folder:
            return difference_of_table("ckrt", case, Path(folder), (9, ["outcome 1: x"]), False, Counter())

    def test_paths(self):
        def right(table, beside, text):
            there = [file.read_text() for file in (table, beside) if file.exists()]
            if not all(old.startswith("outcome 1: ") for old in there):
                return "why\n"
            beside.unlink(missing_ok=True)
            table.write_text(text)
            return ""

        def always(table, beside, text):
            table.write_text(text)
            beside.unlink(missing_ok=True)
            return ""

        def leaves(table, beside, text):
            beside.write_text(text)
            return right(table, beside, text) or beside.write_text(text) * 0 * ""

        for taken in TAKEN:
            for beside in TAKEN:
                self.assertIsNone(self.difference(taken, beside, right), (taken, beside))
                self.assertEqual(self.difference(taken, beside, always) is None, {taken, beside} <= {"nothing", "a table"}, (taken, beside))
        self.assertIsNotNone(self.difference("nothing", "nothing", lambda *paths: ""))
        self.assertIsNotNone(self.difference("nothing", "nothing", leaves))
        self.assertIsNotNone(self.difference("nothing", "a text", lambda table, beside, text: "why\nwhy\n"))


class Making(unittest.TestCase):
    def test_marked(self):
        """What a hunt left that was killed, or a format, is no fault; anything else is."""
        with tempfile.TemporaryDirectory() as place:
            folder = Path(place)
            for content, is_refused in [(bytes(8) + MAKING, False), (bytes(8) + b"CKRTDISK" + bytes(99), False), (b"", False), (bytes(16), True),
                                        (bytes(format_disk(SMALLEST, b"")), False), (begun(), True),
                                        (b"\xa5" + bytes(7) + MAKING, True), (bytes(8) + MAKING[:7], True)]:
                (folder / "a.making").write_bytes(content)
                before = listed(folder)
                told = refusal_of_keep("a", folder)
                self.assertEqual(told is not None and "no disk in the making" in told, is_refused, content)
                self.assertEqual(listed(folder), before)
            (folder / "a").write_bytes(b"")
            self.assertIn("something has this path already", refusal_of_keep("a", folder))


class Chosen(unittest.TestCase):
    def test_cases(self):
        cases = [many_case(Random(seed), seed) for seed in range(60)]
        self.assertEqual({case.taken for case in cases} | {case.taken_beside for case in cases}, set(TAKEN))
        self.assertTrue(all(0 < sum(map(test, cases)) < 60 for test in (lambda case: case.left is None, lambda case: case.options.ignores_output)))
