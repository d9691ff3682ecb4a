"""Disks that note the schedule of their drive, by hand: the bytes, what is no note, the listing, which drive is refused, and what a stop leaves."""
import unittest
from collections import Counter
from dataclasses import replace

from cases.driven import Feeding, drive_of_model
from cases.halts import HaltingDisk, halted_drive_of_model, with_note
from cases.kinds import case_of
from model.devices import MemoryDisk
from model.feeding import RECORD_LENGTH, Undriven
from model.layout import NOTE_END, Geometry, format_disk
from model.lines import serve_disk
from model.listing import listing
from model.plans import Drive, Options
from model.recovery import Unrecovered
from model.schedules import Schedule, decoded, note_schedule, require_schedule, schedule_of
from model.switches import switched
from unit.test_feeding import ListingDisk
from unit.test_rows import image

LOOP = image("0000006f")
SMALL = Geometry(16, 1, 4096)
PLAIN = "40420f0000000000 0000000000000000 0000000000000000"  # turns of 1,000,000 steps, without a seed
DRAWN = "6400000000000000 0100000000000000 0700000000000000"  # of 100 steps, by the seed 7
UNFED = Feeding(is_fed=False), b"", None
GREATEST = "ffffffffffffffff 0100000000000000 ffffffffffffffff"


def note(text):
    return bytes.fromhex(text)


class WithSchedules(unittest.TestCase):
    """Tests of a disk that notes schedules, and of the output beside it."""

    made_of = SMALL, LOOP

    def setUp(self):
        switch = switched(keys=True, long_runs=True, programs=True, schedules=True)
        switch.__enter__()
        self.addCleanup(switch.__exit__, None, None, None)
        self.disk, self.output = format_disk(*self.made_of), bytearray()


class Schedules(WithSchedules):
    def drive(self, *words, **options):
        """The names of the faults of a drive of two events, or its status."""
        status, faults = drive_of_model(self.disk, self.output, Options(*words, **{"events": 2, **options}), Counter(), *UNFED)
        return [str(fault) for fault in faults] or status

    def lines(self):
        return listing(self.disk).splitlines()

    def put(self, in_use, first, second):
        self.disk[2048], self.disk[2560:2584], self.disk[3072:3096] = in_use, note(first), note(second)

    def test_bytes(self):
        for schedule, text in ((Schedule(1_000_000), PLAIN), (Schedule(100, 7), DRAWN), (Schedule(2 ** 64 - 1, 2 ** 64 - 1), GREATEST)):
            self.assertEqual((schedule.encoding(), decoded(note(text))), (note(text), schedule))
        self.assertEqual(Schedule(5, 0).encoding(), note("0500000000000000 0100000000000000 0000000000000000"))
        self.assertEqual((Schedule(5, 0).numbers, Schedule(5).numbers), ([5, 0], [5]))
        self.assertEqual([Options(5, seed=seed).schedule for seed in (None, 0, 1)], [Schedule(5), Schedule(5, 0), Schedule(5, 1)])

    def test_none(self):
        """No steps, another number than 0 or 1, a seed where there is none; and zeros."""
        for text in ("0000000000000000 0100000000000000 0700000000000000", "6400000000000000 0200000000000000 0700000000000000",
                     "6400000000000000 0001000000000000 0700000000000000", "6400000000000000 0000000000000000 0700000000000000",
                     "6400000000000000 0000000000000000 0000000000000001", 48 * "0"):
            self.assertIsNone(decoded(note(text)))
        self.assertEqual(decoded(note("0000000000000001 0000000000000000 0000000000000000")), Schedule(2 ** 56))

    def test_in_use(self):
        for in_use, schedule in ((1, Schedule(1_000_000)), (0, Schedule(100, 7)), (2, Schedule(100, 7)), (255, Schedule(100, 7))):
            self.put(in_use, PLAIN, DRAWN)
            self.assertEqual(schedule_of(self.disk), schedule)
        self.put(1, 48 * "0", DRAWN)
        self.assertIsNone(schedule_of(self.disk))

    def test_first_drive(self):
        """It notes the first, whatever its events: also where it makes none. The next by the same schedule writes nothing there."""
        self.assertEqual(self.drive(events=0), 5)
        self.assertEqual((self.disk[2048], self.disk[2560:2584], any(self.disk[2584:4096])), (1, note(PLAIN), False))
        self.assertFalse(any(self.disk[72:2048]) or any(self.disk[2049:2560]))
        before = bytes(self.disk)
        self.assertEqual(self.drive(events=0), 5)
        self.assertEqual(self.disk, before)

    def test_refused(self):
        """By another turn, by a seed where there is none, by none where there is one; nothing is changed."""
        self.drive(100, seed=7)
        before = bytes(self.disk)
        for words in ((101,), (100,)):
            self.assertEqual(self.drive(*words), ["ScheduleDiffers"])
        for seed in (8, 0):
            self.assertEqual(self.drive(100, seed=seed), ["ScheduleDiffers"])
        self.assertEqual(self.drive(99, seed=7), ["ScheduleDiffers"])
        self.assertEqual(self.disk, before)
        self.assertEqual(self.drive(100, 5, 7), 5)
        self.assertEqual(self.drive(100, 9, 7), 5)

    def test_told(self):
        self.drive(100, seed=7)
        for wanted, told in ((Schedule(99), ["100", "7", "99"]), (Schedule(99, 8), ["100", "7", "99", "8"])):
            with self.assertRaises(Undriven) as caught:
                require_schedule(self.disk, wanted, False)
            self.assertEqual((str(caught.exception), caught.exception.told), ("ScheduleDiffers", told))

    def test_another(self):
        """The notes are taken in turn, and the one before stays."""
        self.drive(100, seed=7)
        self.assertEqual(self.drive(is_other=True), 5)
        self.assertEqual((self.disk[2048], self.disk[2560:2584], self.disk[3072:3096]), (2, note(DRAWN), note(PLAIN)))
        self.assertEqual(self.drive(100, seed=7), ["ScheduleDiffers"])
        self.assertEqual(self.drive(100, seed=7, is_other=True), 5)
        self.assertEqual((self.disk[2048], self.disk[2560:2584], self.disk[3072:3096]), (1, note(DRAWN), note(PLAIN)))
        before = bytes(self.disk[:4096])
        self.assertEqual(self.drive(100, seed=7, is_other=True), 5)
        self.assertEqual(self.disk[:4096], before)

    def test_listing(self):
        """The last line, behind that of the program; none where none is noted. Lines, checkpoints and earlier states leave it."""
        self.assertTrue(self.lines()[-1].startswith("program "))
        self.drive()
        self.assertEqual(self.lines()[-1], "schedule 1000000")
        self.drive(100, seed=7, is_other=True)
        self.assertEqual(self.lines()[-1], "schedule 100 7")
        self.assertTrue(self.lines()[-2].startswith("program "))
        serve_disk(self.disk, b"tick 1\ncheckpoint\ntick 1\ncommit\n")
        self.assertEqual(self.lines()[-1], "schedule 100 7")
        self.assertEqual(listing(self.disk, int(self.lines()[0].split()[1]) - 1).splitlines()[-1], "schedule 100 7")
        self.disk[3072] = 0
        self.assertTrue(self.lines()[-1].startswith("program "))

    def test_greatest(self):
        """What no drive takes is told, too."""
        self.put(1, GREATEST, PLAIN)
        self.assertEqual(self.lines()[-1], f"schedule {2 ** 64 - 1} {2 ** 64 - 1}")
        self.assertEqual(self.drive(), ["ScheduleDiffers"])

    def test_unknown_program(self):
        """Nothing is looked at and nothing is written where the superblock is of version 1, or the disk ends before."""
        self.put(1, DRAWN, DRAWN)
        self.disk[16] = 1
        before = bytes(self.disk[:4096])
        self.assertEqual(self.drive(), 5)
        self.assertEqual(self.disk[:4096], before)
        self.assertEqual(self.lines()[-1].split()[0], "thread")
        self.disk[16] = 3
        for length, found in ((4096, Schedule(100, 7)), (4095, None), (3096, None), (NOTE_END, None), (0, None)):
            self.assertEqual(schedule_of(self.disk[:length]), found)
        older, self.disk = self.disk, format_disk(SMALL, LOOP, 1)
        self.assertEqual(self.drive(), 5)
        self.assertFalse(any(self.disk[32:4096]))
        with switched(schedules=False):
            self.assertIsNone(schedule_of(older))

    def test_not_recovered(self):
        """Any bytes there leave a disk as it is to recovery; and a disk that recovers to a fault is noted before."""
        before = self.lines()
        self.disk[72:4096] = bytes(range(250)) * 16 + bytes(24)
        self.assertEqual(self.lines()[:len(before)], before)
        broken = format_disk(SMALL, LOOP)
        broken[SMALL.area_at(0)] = 0
        with self.assertRaisesRegex(Unrecovered, "Damaged"):
            Drive(MemoryDisk(broken), bytearray(), Options(), None)
        self.assertEqual(schedule_of(broken), Schedule(1_000_000))

    def test_before_and_behind(self):
        """A fault of the input comes before the note, one of the output behind it."""
        for feeding, output, faults, noted in ((Feeding(lacking=5), b"", ["InputTooShort"], None), (UNFED[0], b"a", ["OutputDiffers"], Schedule(9))):
            disk = format_disk(SMALL, LOOP) + bytes(RECORD_LENGTH)
            serve_disk(disk, b"in 414243\ncheckpoint\n")
            given = replace(feeding, said=3) if feeding.is_fed else feeding
            status, found = drive_of_model(disk, bytearray(output), Options(9), Counter(), given, b"ABCDE", None)
            self.assertEqual((status, [str(fault) for fault in found], schedule_of(disk)), (1, faults, noted))

    def test_calls(self):
        disk = ListingDisk(self.disk)
        note_schedule(disk, Schedule(100, 7))
        self.assertEqual(disk.listed, [None, (2560, 24), None, (2048, 1), None])
        note_schedule(disk, Schedule(100, 7))
        self.assertEqual(len(disk.listed), 5)
        note_schedule(disk, Schedule(100, 8))
        self.assertEqual(disk.listed[5:], [None, (3072, 24), None, (2048, 1), None])

    def test_before_recovery(self):
        """The sixth call is the sync of recovery."""
        disk = ListingDisk(self.disk)
        Drive(disk, bytearray(), Options(events=0), None).run()
        self.assertEqual(disk.listed, [None, (2560, 24), None, (2048, 1), None, None])

    def test_stops(self):
        """A stop at each call, with each fill, leaves the schedule before or the new one, and a drive that may go by another goes on."""
        for old in (None, Schedule(7, 3)):
            for call in range(1, 7):
                for fill in (b"", b"\1", b"\xa5", b"\2\1"):
                    begun = with_note(format_disk(SMALL, LOOP), old)
                    disk = HaltingDisk(begun, call, fill)
                    self.assertIsNone(halted_drive_of_model(disk, bytearray(), Options(100, seed=7, events=1, is_other=True), None, Counter()))
                    found = schedule_of(disk.bytes)
                    self.assertIn(found, [old, Schedule(100, 7)], (call, fill))
                    self.assertEqual(listing(disk.bytes).splitlines()[:5], listing(begun).splitlines()[:5])
                    if call in (1, 2, 3):
                        self.assertEqual(found, old)
                    if call == 6 or call == 5 and not fill:
                        self.assertEqual(found, Schedule(100, 7))

    def test_drawn(self):
        """Refusals, schedules that stay and others come up, and bytes of each kind."""
        cases = [case_of("schedules", seed) for seed in range(1, 61)]
        outcomes = Counter()
        for case in cases:
            disk, output = case.disk(), bytearray()
            for options, feeding in zip(case.drives, case.feedings):
                before = schedule_of(disk)
                _, faults = drive_of_model(disk, output, options, Counter(), feeding, case.data, "path")
                outcomes.update(str(fault) for fault in faults)
                outcomes["noted"] += before is None and schedule_of(disk) is not None
                outcomes["another"] += before is not None and schedule_of(disk) != before
        self.assertTrue(all(outcomes[name] > 5 for name in ("ScheduleDiffers", "noted", "another")), outcomes)
        self.assertEqual({len(case.put) for case in cases}, {0, 1, 3})
