"""Hunts that look for races: rows of pairs and of cycles of locks by hand, tables read back, and the comparison on programs made of the model, of which it has to
find each wrong one."""
import tempfile
import unittest
from collections import Counter
from dataclasses import replace
from pathlib import Path
from random import Random
from unittest.mock import patch

from cases.kinds import case_of
from cases.raced import Crossing, Run, difference_of_raced, difference_of_told
from cases.timed import TimedCase, difference_of_disks, difference_of_timed, rows_of
from model.accesses import Access
from model.hunts import Options, Row, fold, line_of_kept, lines_of_table, text_of_outcome
from model.lock_orders import Lock, LockOrders, Order, Taking
from model.race_rows import CYCLES, Row as RaceRow, difference_of_found, lines_of_found, rows_of_found, split_table
from model.races import Races, Readings
from model.stretches import Recording
from model.switches import switched
from unit.stand_in_hunts import (WRONG_HUNTS, Hunts, KeepsAnother, KeepsShorter, LastFound, RacesFirst, StatusOfOutcomes, Tally, Unasked, WithoutWord,
                                 disk_of, of, of_tally)

OPTIONS = Options(16, 2, 99, is_raced=True)
RIGHT, FINDING = range(1, 27), [1, 4, 6, 2, 15, 16, 25, 20, 26, 32, 42]  # seeds of cases
FIRST = "5+91 thread 3 stores 00002800 pc 00001038, 7+7 thread 2 stores 00002800 pc 000010c8"
SECOND = "5+93 thread 3 loads 00002804 pc 00001040, 7+10 thread 2 stores 00002804 pc 000010d4"
TURNED = "6+7 thread 2 stores 00002800 pc 000010c8, 8+3 thread 3 stores 00002800 pc 00001038"


def access(event, step, thread, kind, address, place):
    return Access((event, step), thread, kind == "stores", address, 4, place, False)


LEFT = access(5, 91, 3, "stores", 0x2800, 0x1038), access(7, 7, 2, "stores", 0x2800, 0x10C8)
RIGHT_PAIR = access(5, 93, 3, "loads", 0x2804, 0x1040), access(7, 10, 2, "stores", 0x2804, 0x10D4)
LEFT_TURNED = access(6, 7, 2, "stores", 0x2800, 0x10C8), access(8, 3, 3, "stores", 0x2800, 0x1038)


def races_of(*accesses):
    """Of a run in which nothing orders anything."""
    races = Races(False)
    for one in accesses:
        races.note(one)
    return races


def many(first, count):
    """A pair at each of so many places."""
    return [access(9, number, thread, "stores", 0x3000 + 4 * at, 0x1000 * thread + 4 * at) for number, at in enumerate(range(first, first + count))
            for thread in (2, 3)]


def order(position, thread, address, held, place):
    """Of a mutex under another one; the places of both are the same, but for the call before."""
    under = Taking(Lock("mutex", held), (position[0], position[1] - 2), (0x1000, place - 8))
    return Order(thread, Taking(Lock("mutex", address), position, (0x1000, place)), [under])


def locks_of(*orders):
    """What is known where threads took locks so."""
    known = LockOrders()
    for one in orders:
        known.note(one)
    return known


CROSSED = order((3, 9), 2, 0x2004, 0x2000, 0x1100), order((5, 7), 3, 0x2000, 0x2004, 0x1200)
CROSSED_TURNED = order((4, 9), 3, 0x2000, 0x2004, 0x1200), order((6, 7), 2, 0x2004, 0x2000, 0x1100)
ELSEWHERE = order((8, 9), 2, 0x3004, 0x3000, 0x1300), order((9, 7), 3, 0x3000, 0x3004, 0x1300)
CYCLE = "5+7 thread 3 takes mutex 00002000 pc 00001000 from 00001200, 3+9 thread 2 takes mutex 00002004 pc 00001000 from 00001100, a cycle of 2"
CYCLE_TURNED = "6+7 thread 2 takes mutex 00002004 pc 00001000 from 00001100, 4+9 thread 3 takes mutex 00002000 pc 00001000 from 00001200, a cycle of 2"
CYCLE_ELSEWHERE = "9+7 thread 3 takes mutex 00003000 pc 00001000 from 00001300, 8+9 thread 2 takes mutex 00003004 pc 00001000 from 00001300, a cycle of 2"


def many_locks(first, count):
    """A cycle at each of so many places."""
    return [one for at in range(first, first + count)
            for one in (order((8, at), 2, 0x9000 + 8 * at, 0x9004 + 8 * at, 0x5000 + 8 * at), order((9, at), 3, 0x9004 + 8 * at, 0x9000 + 8 * at, 0x5004 + 8 * at))]


def row(number, count, total, seed, text, name="race"):
    return [f"{name} {number}: {count} of {total} runs, first by seed {seed}: {text}",
            f"    ckrt hunt image --seeds {seed}-{seed} --pages 16 --harts 2 --steps 99 --races --keep seed-{seed}.disk"]


class Rows(unittest.TestCase):
    def tells(self, found, *rows):
        self.assertEqual(lines_of_found("image", found, OPTIONS), [line for lines in rows for line in lines])

    def test_one_run(self):
        """In the order in which they were found, whichever addresses they have."""
        self.tells({3: races_of(*LEFT, *RIGHT_PAIR)}, row(1, 1, 1, 3, FIRST), row(2, 1, 1, 3, SECOND))
        self.tells({3: races_of(*RIGHT_PAIR, *LEFT)}, row(1, 1, 1, 3, SECOND), row(2, 1, 1, 3, FIRST))

    def test_several_runs(self):
        """The accesses are those of the first run that has the pair; whichever place came first, it is one."""
        self.tells({8: races_of(), 9: races_of(*LEFT_TURNED), 10: races_of(*RIGHT_PAIR, *LEFT)},
                   row(1, 2, 3, 9, TURNED), row(2, 1, 3, 10, SECOND))
        self.tells({8: races_of(*LEFT), 9: races_of(*LEFT_TURNED)}, row(1, 2, 2, 8, FIRST))

    def test_once_a_run(self):
        again = access(8, 0, 3, "stores", 0x2800, 0x1038), access(8, 1, 2, "stores", 0x2800, 0x10C8)
        often = races_of(*LEFT, *again, *again)
        self.assertEqual([pair.count for pair in often.pairs.values()], [5])
        self.tells({8: often, 9: races_of(*LEFT)}, row(1, 2, 2, 8, FIRST))

    def test_no_races(self):
        self.tells({8: races_of()}, ["no races in 1 runs; other schedules may have some"])
        self.tells(dict.fromkeys(range(1, 201), races_of(LEFT[0])), ["no races in 200 runs; other schedules may have some"])

    def test_other_races(self):
        """Behind 64 pairs, whether a run has one of its own, or more than are kept of one."""
        def last(found):
            lines = lines_of_found("image", found, OPTIONS)
            self.assertEqual(lines[126].split(":")[0], "race 64")
            return lines[128:]

        full = races_of(*many(0, 64))
        self.assertEqual((len(races_of(*many(0, 66)).pairs), races_of(*many(0, 66)).others), (64, 2))
        self.assertEqual(last({1: full, 2: races_of(*many(0, 64))}), [])
        self.assertEqual(last({1: full, 2: races_of(*many(0, 65)), 3: races_of()}), ["other races: in 1 of 3 runs"])
        self.assertEqual(last({1: full, 2: races_of(*many(64, 1)), 3: races_of(*many(60, 9))}), ["other races: in 2 of 3 runs"])
        self.assertEqual(last({1: races_of(*many(0, 66)), 2: races_of()}), ["other races: in 1 of 2 runs"])
        self.assertEqual(last({1: races_of(*many(0, 33)), 2: races_of(*many(20, 45))}), ["other races: in 1 of 2 runs"])


class CycleRows(unittest.TestCase):
    def tells(self, found, *rows):
        told = [line for number, (*numbers, text) in enumerate(rows, 1) for line in row(number, *numbers, text, "lock cycle")]
        self.assertEqual(lines_of_found("image", found, OPTIONS, CYCLES), told or [f"no lock cycles in {len(found)} runs; other schedules may have some"])

    def test_runs(self):
        """Whichever order closed one, it is one; it is told as in the first run that has it, and each run counts once."""
        self.tells({3: locks_of(*CROSSED, *ELSEWHERE)}, (1, 1, 3, CYCLE), (1, 1, 3, CYCLE_ELSEWHERE))
        self.tells({8: locks_of(), 9: locks_of(*CROSSED_TURNED), 10: locks_of(*ELSEWHERE, *CROSSED)}, (2, 3, 9, CYCLE_TURNED), (1, 3, 10, CYCLE_ELSEWHERE))
        again = locks_of(*CROSSED, order((8, 8), 4, 0x2000, 0x2004, 0x1200))
        self.assertEqual([cycle.count for cycle in again.cycles.values()], [2])
        self.tells({8: again, 9: locks_of(*CROSSED)}, (2, 2, 8, CYCLE))
        self.tells({8: locks_of(), 9: locks_of(CROSSED[0])})

    def test_others(self):
        def last(found):
            return lines_of_found("image", found, OPTIONS, CYCLES)[128:]

        full = locks_of(*many_locks(0, 64))
        self.assertEqual((len(full.cycles), full.others, locks_of(*many_locks(0, 66)).others), (64, 0, 2))
        self.assertEqual(last({1: full, 2: full}), [])
        self.assertEqual(last({1: full, 2: locks_of(*many_locks(0, 66)), 3: locks_of()}), ["other lock cycles: in 1 of 3 runs"])
        self.assertEqual(last({1: full, 2: locks_of(*many_locks(60, 5)), 3: locks_of(*many_locks(64, 1))}), ["other lock cycles: in 2 of 3 runs"])


class ReadBack(unittest.TestCase):
    ROWS = [*row(1, 2, 9, 3, FIRST), *row(2, 1, 9, 3, SECOND)]
    CYCLES = [*row(1, 3, 9, 2, CYCLE, "lock cycle"), *row(2, 1, 9, 3, CYCLE_ELSEWHERE, "lock cycle")]
    NO_CYCLES = ["no lock cycles in 9 runs; other schedules may have some"]

    def test_split(self):
        table = ["outcome 1: 9 of 9 runs, first by seed 1: exit 0, output 1", "    ckrt hunt"]
        for races in (self.ROWS, ["no races in 9 runs; other schedules may have some"], []):
            for cycles in (self.CYCLES, self.NO_CYCLES, []):
                self.assertEqual(split_table(table + races + cycles), (table, races, cycles))

    def test_rows(self):
        self.assertEqual(rows_of_found(self.ROWS, OPTIONS, 9), [RaceRow(2, 3, FIRST, frozenset(["00001038", "000010c8"])),
                                                                RaceRow(1, 3, SECOND, frozenset(["00001040", "000010d4"]))])
        self.assertEqual(rows_of_found(["no races in 9 runs; other schedules may have some"], OPTIONS, 9), [])
        for wrong in [["no races in 8 runs; other schedules may have some"], [], self.ROWS[:3], self.ROWS[2:], row(1, 10, 9, 3, FIRST), row(1, 0, 9, 3, FIRST),
                      row(1, 2, 8, 3, FIRST), [*self.ROWS[:2], *row(2, 1, 9, 2, SECOND)], [*self.ROWS[:2], *row(2, 1, 9, 4, TURNED)],
                      [line.replace(" --races", "") for line in self.ROWS], [line.replace("3-3", "4-4") for line in self.ROWS],
                      row(1, 2, 9, 3, FIRST.split(", ")[0]), [*self.ROWS, "other races: in 1 of 9 runs"]]:
            self.assertIsNone(rows_of_found(wrong, OPTIONS, 9), wrong)

    def test_rows_of_cycles(self):
        read = lambda lines: rows_of_found(lines, OPTIONS, 9, CYCLES)
        self.assertEqual(read(self.CYCLES), [RaceRow(3, 2, CYCLE, (2, frozenset([("00001000", "00001100"), ("00001000", "00001200")]))),
                                             RaceRow(1, 3, CYCLE_ELSEWHERE, (2, frozenset([("00001000", "00001300")])))])
        self.assertEqual(read(self.NO_CYCLES), [])
        read_write = CYCLE.replace("mutex 00002000", "rwlock 00005000 to read").replace("mutex 00002004", "rwlock 00005004 to write")
        self.assertIsNotNone(read(row(1, 3, 9, 2, read_write, "lock cycle")))
        for wrong in [[], self.ROWS, row(1, 1, 9, 1, FIRST, "lock cycle"), row(1, 3, 9, 2, CYCLE), [*self.CYCLES[:2], *row(2, 1, 9, 3, CYCLE_TURNED, "lock cycle")],
                      row(1, 3, 9, 2, CYCLE.replace("of 2", "of 3"), "lock cycle"), row(1, 3, 9, 2, CYCLE.replace("mutex", "lock"), "lock cycle"),
                      row(1, 3, 9, 2, ", ".join([CYCLE.split(", ")[0], "a cycle of 1"]), "lock cycle"), ["no races in 9 runs; other schedules may have some"]]:
            self.assertIsNone(read(wrong), wrong)

    def test_other_races(self):
        def told(count, *last):
            texts = [FIRST.replace("00001038", f"{0x2000 + 4 * number:08x}") for number in range(count)]
            return [*(line for number, text in enumerate(texts, 1) for line in row(number, 1, 9, 3, text)), *last]

        for lines, is_right in [(told(64), True), (told(65), False), (told(64, "other races: in 9 of 9 runs"), True),
                                (told(64, "other races: in 10 of 9 runs"), False), (told(64, "other races: in 0 of 9 runs"), False),
                                (told(64, "other races: in 1 of 8 runs"), False), (told(63, "other races: in 1 of 9 runs"), False)]:
            self.assertEqual(rows_of_found(lines, OPTIONS, 9) is not None, is_right, lines[-1])

    def test_rows_of_a_run(self):
        """A seed's run has the rows that it is the first to have, in their order, and none that has no row or a later seed."""
        readings = Readings()
        readings.narrow = readings.wide = races_of(*LEFT, *RIGHT_PAIR)
        one, two = rows_of_found(self.ROWS, OPTIONS, 9)
        for rows, is_right in [([one, two], True), ([two, one], False), ([one], False), ([replace(one, first=2), two], True),
                               ([one, replace(two, first=4)], False), ([replace(one, text=TURNED), two], False),
                               ([replace(one, first=2, text=TURNED), two], True),
                               ([one, two, replace(two, places=frozenset("ab"))], False), ([one, two, replace(two, first=4, places=frozenset("ab"))], True)]:
            self.assertEqual(difference_of_found((rows, []), 3, readings) is None, is_right, rows)
        full = [replace(one, first=1, places=frozenset([str(number)])) for number in range(64)]
        self.assertIsNone(difference_of_found((full, []), 3, readings))
        readings.wide = races_of()
        self.assertIsNone(difference_of_found(([], []), 3, readings))

    def test_cycles_of_a_run(self):
        """Also where races are left open."""
        readings, open_ones = Readings(), Readings()
        open_ones.narrow = races_of(*LEFT)
        readings.locks.known = open_ones.locks.known = locks_of(*CROSSED, *ELSEWHERE)
        one, two = rows_of_found(self.CYCLES, OPTIONS, 9, CYCLES)
        for rows, is_right in [([one, two], True), ([replace(one, first=3), two], True), ([one], False), ([], False), ([one, replace(two, first=4)], False),
                               ([one, replace(two, text=CYCLE_TURNED)], False), ([replace(two, first=3), replace(one, first=3)], False)]:
            for run in (readings, open_ones):
                self.assertEqual(difference_of_found(([], rows), 3, run) is None, is_right, rows)
        self.assertIsNotNone(difference_of_found(([], [one]), 3, Readings()) or difference_of_found(([], [one]), 2, Readings()))

    def test_tables(self):
        table = ["outcome 1: 9 of 9 runs, first by seed 1: exit 0, output 1",
                 "    ckrt hunt image --seeds 1-1 --pages 16 --harts 2 --steps 99 --races --keep seed-1.disk"]
        found = [Row(9, 1, "exit 0, output 1")]
        for cycles in (self.NO_CYCLES, self.CYCLES):
            rows = [rows_of_found(self.ROWS, OPTIONS, 9), rows_of_found(cycles, OPTIONS, 9, CYCLES)]
            self.assertEqual(rows_of(table + self.ROWS + cycles, OPTIONS), (found, 9, rows))
        plain = [line.replace(" --races", "") for line in table]
        self.assertEqual(rows_of(plain, replace(OPTIONS, is_raced=False)), (found, 9, [[], []]))
        for wrong in [table, self.ROWS, plain + self.ROWS, self.ROWS + table, table + self.ROWS, table + self.CYCLES, table + self.CYCLES + self.ROWS,
                      plain + self.ROWS + self.CYCLES]:
            self.assertIsNone(rows_of(wrong, OPTIONS), wrong)
        self.assertIsNone(rows_of(plain + self.ROWS, replace(OPTIONS, is_raced=False)))


class Comparison(unittest.TestCase):
    def setUp(self):
        switch = switched(keys=True, long_runs=True)
        switch.__enter__()
        self.addCleanup(switch.__exit__, None, None, None)
        folder = tempfile.TemporaryDirectory()
        self.addCleanup(folder.cleanup)
        self.folder, self.tally = Path(folder.name), Counter()

    def difference(self, program, seed):
        with patch("cases.raced.hunt", program.hunt), patch("cases.hunted.hunt", program.hunt), patch("cases.raced.glance_of_program", program.glance):
            return difference_of_raced("ckrt", case_of("raced", seed), self.folder, self.tally)

    def test_right(self):
        for seed in RIGHT:
            self.assertIsNone(self.difference(Hunts(), seed), seed)
        self.assertEqual(self.tally["hunt for races", "shown"], len(RIGHT))
        for kind in ("stores, stores", "loads, stores", "stores, loads", "no", "other"):
            self.assertGreater(self.tally["race of a hunt", kind], 0, kind)

    def test_wrong(self):
        for wrong in WRONG_HUNTS:
            with self.subTest(wrong=wrong.__name__):
                self.assertTrue(any(self.difference(wrong(), seed) for seed in FINDING))

    def test_left_open(self):
        """Where two readings of what orders differ the outcomes are compared."""
        readings = Readings()
        readings.narrow, readings.wide = races_of(*LEFT), races_of()
        runs = {3: Run("deadlock", 0, readings, b"")}
        table = lines_of_table("image", {3: "deadlock"}, OPTIONS)
        readings.locks.known = locks_of(*CROSSED)
        cycles = row(1, 1, 1, 3, CYCLE, "lock cycle")
        for lines in (lines_of_found("image", {3: races}, OPTIONS) for races in (readings.narrow, readings.wide)):
            self.assertIsNone(difference_of_told((8, table + lines + cycles), runs, OPTIONS))
            self.assertIsNotNone(difference_of_told((8, table[:1] + lines + cycles), runs, OPTIONS))
            self.assertIsNotNone(difference_of_told((8, table + lines), runs, OPTIONS))
        readings.wide = readings.narrow
        self.assertIsNone(difference_of_told((8, table + row(1, 1, 1, 3, FIRST) + cycles), runs, OPTIONS))
        self.assertIsNotNone(difference_of_told((0, table + row(1, 1, 1, 3, FIRST) + cycles), runs, OPTIONS))
        self.assertIsNotNone(difference_of_told((8, table), runs, OPTIONS))
        readings.narrow = readings.wide = races_of()
        none = ["no races in 1 runs; other schedules may have some"]
        self.assertIsNone(difference_of_told((8, table + none + cycles), runs, OPTIONS))
        self.assertIsNotNone(difference_of_told((0, table + none + cycles), runs, OPTIONS))

    def test_kept_by_time(self):
        """A disk that is kept has the rows of its seed, and its line says that it is as it was drawn."""
        case = case_of("raced", 1)
        disk = disk_of(1, case.options, case.image, None)
        recording = Recording(bytearray(disk))
        folded, readings = fold(recording), recording.show(Readings())
        found = [Row(1, 1, text_of_outcome(folded, case.options.steps))]
        rows = rows_of_found(lines_of_found("image", {1: readings.narrow}, case.options), case.options, 1)
        cycles = rows_of_found(lines_of_found("image", {1: readings.locks.known}, case.options, CYCLES), case.options, 1, CYCLES)
        timed = TimedCase(case.image, case.options, "kept", 0, None)

        def difference(rows, drawn=None, seed=1):
            (self.folder / "kept").write_bytes(disk)
            return difference_of_disks(timed, self.folder / "kept", found, (rows, cycles), [line_of_kept(seed, "kept", folded.switches, drawn)])

        self.assertTrue(rows)
        self.assertIsNone(difference(rows))
        self.assertIsNotNone(difference(rows[1:]))
        self.assertIsNotNone(difference(rows, folded.switches))
        cycles = [RaceRow(1, 1, CYCLE, (2, frozenset()))]
        self.assertIsNotNone(difference(rows))
        timed.options = replace(case.options, is_raced=False)
        self.assertIsNone(difference([], folded.switches))
        self.assertIsNotNone(difference([]))

    def differs_by_time(self, program, is_raced=True, keep="folder/"):
        """Of a hunt that runs three seeds in its time."""
        timed = TimedCase(Crossing(Random(1)).image, Options(16, 1, 3000, is_raced=is_raced), keep, 0, None)

        def run_hunt(ckrt, case, folder, *words):
            status, lines = program.hunt(ckrt, folder, range(1, 4), case.options, *words[words.index("--keep"):] if "--keep" in words else [])
            return status, lines, [], 1.5

        with patch("cases.timed.run_hunt", run_hunt), patch("cases.timed.difference_of_refused", lambda *ignored: None):
            return difference_of_timed("ckrt", timed, self.folder, self.tally)

    def test_by_time(self):
        """Its status, its rows, and what it keeps."""
        for keep in (None, "kept", "folder/"):
            self.assertIsNone(self.differs_by_time(Hunts(), keep=keep))
        self.assertEqual(self.tally["hunt by time", "one outcome"], 3)
        self.assertGreater(self.tally["hunt by time", "row of a race"], 0)
        for wrong in (StatusOfOutcomes, KeepsShorter, KeepsAnother, WithoutWord, RacesFirst, of_tally(of(Tally, LastFound))):
            self.assertIsNotNone(self.differs_by_time(wrong()), wrong)
        self.assertIsNone(self.differs_by_time(KeepsShorter(), False))
        self.assertIsNotNone(self.differs_by_time(Unasked(), False, "kept"))
