"""Hunts by time: tables read back, lines of progress, and which words are refused."""
import unittest

from cases.timed import LONGEST, REFUSED, difference_of_progress, fault_of_options, outcomes_of
from model.hunts import Options, Row, command_of

OPTIONS = Options(16, 1, 99)
FOUND = [Row(2, 4, "deadlock"), Row(7, 1, "exit 0, output 1")]


def table(*outcomes, total, commands=None):
    lines = []
    for number, (count, seed, text) in enumerate(outcomes, 1):
        command = command_of("image", (commands or {}).get(number, seed), OPTIONS)
        lines += [f"outcome {number}: {count} of {total} runs, first by seed {seed}: {text}", f"    {command}"]
    return lines


class Tables(unittest.TestCase):
    def test_read(self):
        rows = (2, 4, "deadlock"), (7, 1, "exit 0, output 1")
        self.assertEqual(outcomes_of(table(*rows, total=9), OPTIONS), (FOUND, 9))
        for wrong in [table(*rows, total=8), table(*rows[::-1], total=9), table(rows[0], (7, 1, rows[0][2]), total=9), table(*rows, total=9)[:-1],
                      table(*rows, total=9, commands={2: 5}), table(rows[0], total=2) + table(rows[1], total=7), ["no table", "x"],
                      table(rows[0], total=2) + table(rows[0], rows[1], total=2)[2:], [*table(*rows, total=9), "others"],
                      table((2, 1, "deadlock"), rows[1], total=9), table(rows[0], total=8) + table(*rows, total=9)[2:],
                      table((2, 4, "exit 0, output 2"), rows[1], total=9),
                      [line.replace("outcome 2", "outcome 3") for line in table(*rows, total=9)]]:
            self.assertIsNone(outcomes_of(wrong, OPTIONS), wrong)
        self.assertIsNone(outcomes_of(table(*rows, total=9), Options(17, 1, 99)))

    def test_said(self):
        """Right below an outcome's line, and nowhere else."""
        lines = table((2, 4, "deadlock"), (7, 1, "exit 0, output 1"), total=9)
        said = [lines[0], "    said: a", *lines[1:]]
        self.assertEqual(outcomes_of(said, OPTIONS), ([Row(2, 4, "deadlock", "a"), FOUND[1]], 9))
        self.assertIsNone(outcomes_of([*lines[:2], "    said: a", *lines[2:]], OPTIONS))
        self.assertIsNone(outcomes_of([*lines, "    said: a"], OPTIONS))

    def test_others(self):
        """Behind 64 outcomes of a kind, and only there."""
        rows = [(1, seed, f"exit {seed}, output 1") for seed in range(1, 67)]
        for count, last, is_right in [(64, [], True), (64, ["other outcomes: 3 of 67 runs"], True), (64, ["others: 3 of 67 runs"], False), (64, ["other outcomes: 3 of 68 runs"], False),
                                      (64, ["other outcomes: 2 of 67 runs"], False), (63, ["other outcomes: 3 of 66 runs"], False),
                                      (65, [], False), (64, ["other outcomes: 3 of 67 runs"] * 2, False)]:
            told = [*table(*rows[:count], total=count + 3 * bool(last)), *last]
            self.assertEqual(outcomes_of(told, OPTIONS) is not None, is_right, (count, last))
        for first, last, is_right in [(64, [], True), (64, ["other outcomes: 3 of 68 runs"], True), (63, ["other outcomes: 3 of 67 runs"], False)]:
            told = table(*rows[:first], (1, 70, "exit 0, output 1"), total=first + 1 + 3 * bool(last))
            self.assertEqual(outcomes_of([*told, *last], OPTIONS) is not None, is_right, (first, last))


class Progress(unittest.TestCase):
    def fits(self, *lines, first=1, total=9, seconds=9, found=FOUND):
        told = [f"progress: {runs} runs, seed {seed}, {rate} runs a second, outcomes: {outcomes}" for runs, seed, rate, outcomes in lines]
        return difference_of_progress(told, found, first, total, seconds) is None

    def test_lines(self):
        for lines, is_right in [((), True), (((3, 3, 3, 1), (4, 4, 1, 2)), True), (((9, 9, 1, 2),), True), (((10, 10, 1, 2),), False),
                                (((3, 3, 4, 1),), False), (((3, 4, 3, 1),), False), (((3, 3, 3, 2),), False), (((4, 4, 4, 1),), False),
                                (((3, 3, 3, 1), (3, 3, 0, 1)), False), (((3, 3, 3, 1), (5, 5, 3, 2)), False), (((0, 0, 0, 0),), False)]:
            self.assertEqual(self.fits(*lines), is_right, lines)
        self.assertFalse(self.fits((1, 1, 1, 1), (2, 2, 1, 1), seconds=1.9))
        self.assertEqual(difference_of_progress(["progress: 3 runs"], FOUND, 1, 9, 9), "no line of progress: progress: 3 runs")

    def test_later_ranges(self):
        found = [Row(9, 501, "deadlock")]
        self.assertTrue(self.fits((2, 502, 2, 1), first=501, found=found))
        self.assertFalse(self.fits((2, 2, 2, 1), first=501, found=found))


class Words(unittest.TestCase):
    def test_range(self):
        for words, fault in [((None, 1, None), None), ((None, 0, None), "Range"), ((None, LONGEST, 1), None), ((None, LONGEST + 1, None), "Range"),
                             (("1-2", 1, None), "Range"), (("1-2", None, 1), None), (("1-2", None, 0), "Range"), ((None, None, None), None),
                             (("3-2", None, None), "Range"), (("2-2", None, None), None)]:
            self.assertEqual(fault_of_options(*words), fault, words)
        self.assertEqual({fault_of_options(*words) for words in REFUSED}, {"Range"})
        self.assertEqual(LONGEST, 365 * 24 * 60 * 60)
