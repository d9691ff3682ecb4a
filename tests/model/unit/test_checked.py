"""Hunts that look for errors of memory: rows by hand, words that are refused, and the comparison on programs made of the model, of which it has to find each
wrong one."""
import tempfile
import unittest
from collections import Counter
from pathlib import Path
from subprocess import CompletedProcess
from unittest.mock import patch

from cases.checked import LEAST, ROWS, CheckedCase, difference_of_checked, kind_of_error, lines_of_errors, tables_of_errors
from cases.kinds import case_of
from cases.raced import Run
from model.checks import Checks
from model.hunts import Options, lines_of_table
from model.race_rows import ERRORS, lines_of_found
from unit.stand_in_hunts import WRONG_CHECKS, Hunts
from unit.test_checks import HEAP, back, freed, load, nobodys, store, taken
from unit.test_races import WithKeys, recording_of

OPTIONS = Options(16, 2, 99, is_checked=True)
RIGHT, FINDING = range(1, 9), range(1, 9)  # seeds of cases


def checks_of(*words):
    """Of one thread behind a heap that is nobody's."""
    return recording_of([(2, [*nobodys(), *words])]).show(Checks())


def row(number, count, total, seed, text):
    return [f"error {number}: {count} of {total} runs, first by seed {seed}: {text}",
            f"    ckrt hunt image --seeds {seed}-{seed} --pages 16 --harts 2 --steps 99 --check --keep seed-{seed}.disk"]


class Rows(WithKeys):
    def kinds(self, found):
        return [kind_of_error(line) for line in lines_of_found("image", found, OPTIONS, ERRORS) if line[0] != " "]

    def test_text(self):
        """The line of the error in the first run that has it, register 1, and the command."""
        late = checks_of(*taken(), *back(0x1104), *freed(), *load(HEAP + 4))
        told = lines_of_found("image", {7: checks_of(), 8: late, 9: late}, OPTIONS, ERRORS)
        self.assertEqual(told, row(1, 2, 3, 8, told[0].partition(": 2 of 3 runs, first by seed 8: ")[2]))
        self.assertRegex(told[0], r": 3\+\d+ thread 2 loads 00002804 pc 000010\w\w in a block that was given back, once, x1 00001104$")
        self.assertEqual(kind_of_error(told[0]), "loads in a block that was given back")

    def test_none(self):
        self.assertEqual(lines_of_found("image", {8: checks_of(*taken())}, OPTIONS, ERRORS), ["no errors of memory in 1 runs; other schedules may have some"])

    def test_by_place(self):
        """What is done, the place, register 1 and what is wrong make one, in the order in which they came."""
        one, other = checks_of(*back(0x1104), *load(HEAP)), checks_of(*back(0x1108), *load(HEAP))
        self.assertEqual(self.kinds({1: one, 2: one}), ["loads in no block"])
        self.assertEqual(self.kinds({1: one, 2: other}), ["loads in no block"] * 2)
        self.assertEqual(self.kinds({1: one, 2: checks_of(*back(0x1104), *store(HEAP))}), ["loads in no block", "stores in no block"])
        stores = checks_of(*store(HEAP + 8), *load(HEAP + 4))
        self.assertEqual(self.kinds({1: stores, 2: one}), ["stores in no block", "loads in no block", "loads in no block"])

    def test_others(self):
        """Behind 64 a run counts that has one without a line, also where it has more than 64 places itself."""
        words = [word for at in range(0, 66 * 4, 4) for word in load(HEAP + at)]
        full, more = [recording_of([(2, [*nobodys(HEAP, 512), *words[:3 * count]])]).show(Checks()) for count in (64, 66)]
        self.assertEqual((len(full.wrongs), full.others, more.others), (64, 0, 2))
        last = lambda found: lines_of_found("image", found, OPTIONS, ERRORS)[128:]
        self.assertEqual(last({1: full, 2: full}), [])
        self.assertEqual(last({1: full, 2: more, 3: checks_of()}), ["other errors of memory: in 1 of 3 runs"])
        self.assertEqual(last({1: full, 2: checks_of(*freed(HEAP + 20))}), ["other errors of memory: in 1 of 2 runs"])

    def test_open(self):
        """A run that doesn't tell which memory is no block's may have errors or not."""
        untold = recording_of([(2, [*taken(), *store(HEAP)])]).show(Checks())
        told = [status for status, _ in tables_of_errors({1: Run("exit 0", 0, [untold] * 4, b"")}, OPTIONS)]
        self.assertEqual((len(ROWS), set(told)), (2, {0, 8}))

    def test_status(self):
        late = checks_of(*freed(HEAP + 20))
        for outcome in ("exit 0", "deadlock"):
            table = lines_of_table("image", {1: outcome}, OPTIONS)
            self.assertEqual(tables_of_errors({1: Run(outcome, 0, [late] * 4, b"")}, OPTIONS)[0], (8, table + lines_of_found("image", {1: late}, OPTIONS, ERRORS)))

    def test_errors_alone(self):
        """What follows them isn't told by a hunt."""
        for last in ("never given back: 1 blocks, bytes: 6", "1+2 thread 1 branches pc 00001088 by a value that was never stored, once"):
            self.assertEqual(lines_of_errors(["1+1 thread 1 frees", "    given back", last, "    in a block"]), ["1+1 thread 1 frees", "    given back"])


class Comparison(WithKeys):
    def setUp(self):
        super().setUp()
        folder = tempfile.TemporaryDirectory()
        self.addCleanup(folder.cleanup)
        self.folder, self.tally = Path(folder.name), Counter()

    def difference(self, program, seed, fault=None):
        case = case_of("checked", seed)
        refused = CompletedProcess([], 1, "", f"ckrt: {fault or case.fault()}\n")
        with patch("cases.raced.hunt", program.hunt), patch("cases.hunted.hunt", program.hunt), patch("cases.checked.glance_of_program", program.glance), \
                patch("cases.checked.subprocess.run", lambda *words, **how: refused):
            return difference_of_checked("ckrt", case, self.folder, self.tally)

    def test_right(self):
        for seed in RIGHT:
            self.assertIsNone(self.difference(Hunts(), seed), seed)
        kinds = {kind.split()[0] for what, kind in self.tally if what == "error of a hunt"}
        self.assertEqual(kinds, {"loads", "stores", "frees", "no", "other"})

    def test_wrong(self):
        for wrong in WRONG_CHECKS:
            with self.subTest(wrong=wrong.__name__):
                self.assertTrue(any(self.difference(wrong(), seed) for seed in FINDING))

    def test_refused(self):
        self.assertIsNotNone(self.difference(Hunts(), RIGHT[0], "Names"))

    def test_faults(self):
        def fault(words, memory=None, has_table=False):
            return CheckedCase(b"", range(1, 2), OPTIONS, None, words.split(), memory, has_table).fault()

        right = [fault(""), fault("", None, True), fault("--check"), fault("--races", LEAST), fault("--check", LEAST)]
        wrong = [fault("--check --races"), fault("--check", None, True), fault("--races", None, True), fault("", LEAST), fault("--check", LEAST - 1), fault("--races", 0)]
        self.assertEqual((set(right), set(wrong)), ({"File"}, {"Range"}))
