"""Lists of lives: the worked one, refusals, and random ones reckoned twice and held to each promise."""
import unittest
from dataclasses import replace
from random import Random

from cases.kinds import guest_case
from cases.life_lists import commands_of, life_list
from model.devices import MemoryDisk
from model.events import Place, Run
from model.foreseen import foreseen
from model.layout import Geometry, Unformatted, format_disk
from model.lines import Plain
from model.lives import Life, lives
from model.promises import Broken, require_promises
from model.recovery import recover
from unit.test_rows import FILLS, PUTS_A, SMALL, STORES

COMMIT, CHECKPOINT, QUIT = Plain(b"commit"), Plain(b"checkpoint"), Plain(b"quit")
WORKED = [Life([Place(0, 1), Run(0, 2), COMMIT], 4, b"\xa5"), Life([], 1), Life([Run(0, 4), COMMIT]), Life([]), Life([CHECKPOINT]),
          Life([])]


class Worked(unittest.TestCase):
    def setUp(self):
        self.reports = lives(PUTS_A, SMALL, WORKED)

    def test_reports(self):
        shown = [(report.recovered, report.acknowledged, report.released_from, report.released) for report in self.reports]
        self.assertEqual(shown, [(0, 0, 0, b""), (None, 0, 0, b""), (2, 3, 0, b"A"), (3, 3, 0, b"A"), (3, 3, 0, b"A"), (3, 3, 1, b"")])

    def test_left(self):
        left = [recover(MemoryDisk(bytearray(report.left))).events for report in self.reports]
        self.assertEqual(left, [2, 2, 3, 3, 3, 3])

    def test_readings(self):
        self.assertTrue(self.reports == foreseen(PUTS_A, SMALL, WORKED))
        require_promises(PUTS_A, SMALL, WORKED, self.reports)

    def test_each_promise(self):
        """A report that is changed in one place breaks one."""
        zeros = bytes(format_disk(SMALL, PUTS_A))
        changes = [(0, "recovered", 1), (0, "recovered", None), (1, "recovered", 2), (1, "left", zeros), (2, "acknowledged", 2),
                   (2, "acknowledged", 4), (2, "released", b""), (2, "released", b"B"), (2, "released_from", 1), (2, "left", zeros),
                   (3, "left", self.reports[0].left), (3, "recovered", 2), (4, "acknowledged", 0), (5, "released", b"A"),
                   (5, "released_from", 0)]
        for number, name, value in changes:
            with self.subTest(number=number, name=name):
                changed = list(self.reports)
                changed[number] = replace(changed[number], **{name: value})
                self.assertRaises(Broken, require_promises, PUTS_A, SMALL, WORKED, changed)
        self.assertRaises(Broken, require_promises, PUTS_A, SMALL, WORKED, self.reports[:-1])


class Stops(unittest.TestCase):
    def test_every_call(self):
        """A commit, a checkpoint, and another one whose area's gate stands open: each call with each fill, then a life on it."""
        commands = [Place(0, 1), Run(0, 3), COMMIT, CHECKPOINT, Run(0, 1), CHECKPOINT]
        gates = {2, 4, 5, 6, 7, 25, 26, 27, 28, 29, 33, 34}
        for call in range(1, 37):
            for fill in FILLS if call in gates else [FILLS[call % len(FILLS)]]:
                listed = [Life(commands, call, fill), Life([Plain(b""), Run(0, 1), COMMIT, QUIT, CHECKPOINT]), Life([])]
                with self.subTest(fill=fill, call=call):
                    reports = lives(PUTS_A, SMALL, listed)
                    self.assertTrue(reports == foreseen(PUTS_A, SMALL, listed))
                    require_promises(PUTS_A, SMALL, listed, reports)

    def test_every_call_of_changed_pages(self):
        """Checkpoints that write one page, one and none, then a life that has to write them again."""
        commands = [Place(0, 1), COMMIT, CHECKPOINT, Run(0, 2), COMMIT, CHECKPOINT, CHECKPOINT, CHECKPOINT]
        for call in range(27, 58):
            listed = [Life(commands, call, FILLS[call % len(FILLS)]), Life([CHECKPOINT, CHECKPOINT, CHECKPOINT]), Life([])]
            with self.subTest(call):
                reports = lives(STORES, SMALL, listed)
                self.assertTrue(reports == foreseen(STORES, SMALL, listed))
                require_promises(STORES, SMALL, listed, reports)

    def test_numbers(self):
        """Without a stop: one sync, four calls of a commit, then 21, then 8; a stop behind them all is none."""
        commands = commands_of([b"place 0 1", b"commit", b"checkpoint", b"run 0 2", b"checkpoint"])
        for call, acknowledged in ((0, 2), (5, 0), (6, 1), (26, 1), (27, 1), (33, 1), (34, 1), (35, 2), (2 ** 64 - 1, 2)):
            with self.subTest(call):
                self.assertEqual(lives(PUTS_A, SMALL, [Life(commands, call)])[0].acknowledged, acknowledged)


class Refused(unittest.TestCase):
    def test_format(self):
        for geometry, image, name in ((Geometry(15, 1, 4096), b"", "BadConfig"), (Geometry(16, 9, 4096), b"", "BadConfig"),
                                      (Geometry(16, 1, 4095), b"", "BadConfig"), (SMALL, bytes(61441), "ImageTooLong")):
            with self.assertRaisesRegex(Unformatted, name):
                lives(image, geometry, WORKED)
        self.assertEqual(lives(bytes(61440), SMALL, []), [])


class RandomLists(unittest.TestCase):
    def test_random(self):
        for seed in range(24):
            with self.subTest(seed):
                chance = Random(f"lives {seed}")
                case = guest_case(chance, seed)
                listed, _ = life_list(chance, case)
                reports = lives(case.image, case.geometry, listed)
                self.assertTrue(reports == foreseen(case.image, case.geometry, listed))
                require_promises(case.image, case.geometry, listed, reports)
