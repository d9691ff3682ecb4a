"""Histories that drives keep, by hand: what they have at the end, behind a stop of the disk at each call, and behind a fault of their own; in which order
a drive is refused; and what cases of them have."""
import unittest
from collections import Counter
from contextlib import suppress

from cases.kept import APART_FROM, BYTES, MISSING, OLDER, OTHER, BringUp, KeptDrive, Placed, PlacedBeside
from cases.kinds import case_of
from cases.mixed import DriveStep, Lines, Resizing
from model.beside import Keeper, Unkept, begun_from, brought_up, read_history, recorded_by
from model.devices import DeviceFault, MemoryDisk, StoppingDisk, filled
from model.feeding import Undriven
from model.layout import Geometry, format_disk
from model.lines import serve_disk
from model.plans import Drive, Options
from model.schedules import Schedule, schedule_of
from model.session import Session
from model.switches import switched
from unit.test_feeding import ECHO
from unit.test_plans import WITHOUT_END
from unit.test_rows import PUTS_A, image
from unit.test_schedules import ListingDisk, WithSchedules

TIGHT, ROOMY = Geometry(16, 2, 4096), Geometry(16, 2, 65536)  # journals that have a checkpoint behind each batch, and none
TURNS = Options(turn=5, rounds=2)  # so a batch has ten events
PUTS_FOR_EVER = image("04100513 00200893 00000073 ff5ff06f")


class WithDrives(WithSchedules):
    made_of = TIGHT, WITHOUT_END

    def drive(self, events, keeper=None, **how):
        words = {**vars(TURNS), **how}
        return Drive(MemoryDisk(self.disk), self.output, Options(**{**words, "events": events}), None, keeper=keeper).run()

    def kept_by(self, events, kept=None, there=b""):
        """What a history has behind a drive by so many events, and what was done at its begin."""
        keeper = Keeper(kept, there)
        self.assertEqual(self.drive(events, keeper), 5)
        return keeper.kept, keeper.line

    def all_events(self, count, words=WITHOUT_END):
        """The events of a drive that never makes a checkpoint."""
        disk = format_disk(ROOMY, words)
        Drive(MemoryDisk(disk), bytearray(), Options(TURNS.turn, TURNS.rounds, events=count), None).run()
        return recorded_by(disk).events


class Keeping(WithDrives):
    def test_all_events(self):
        """Of a disk that has forgotten most of them."""
        kept, line = self.kept_by(95)
        self.assertEqual((line, kept.first, kept.last, kept.events), ("begun", 0, 95, self.all_events(95)))
        self.assertGreater(recorded_by(self.disk).first, 50)

    def test_pieces(self):
        """A drive without the option adds nothing; the next one with it adds what the disk still has."""
        kept, _ = self.kept_by(7)
        kept, line = self.kept_by(8, kept)
        self.assertEqual((line, kept.last), ("appended 0", 15))
        self.drive(5)
        self.assertEqual(kept.last, 15)
        kept, line = self.kept_by(0, kept)
        self.assertEqual((line, kept.events), ("appended 5", self.all_events(20)))
        kept, _ = self.kept_by(60, kept)
        self.assertEqual(kept.events, self.all_events(80))

    def test_begun_later(self):
        self.drive(50)
        first = recorded_by(self.disk).first
        kept, line = self.kept_by(30)
        self.assertEqual((line, kept.first, kept.events), ("begun", first, self.all_events(80)[first:]))

    def test_put_and_fed(self):
        """Inputs are events like others, and what the program puts is none."""
        disk, output, keeper = format_disk(Geometry(16, 1, 4096), ECHO), bytearray(), Keeper()
        self.assertEqual(Drive(MemoryDisk(disk), output, Options(turn=40, rounds=1), None, b"ab" * 70, keeper=keeper).run(), 0)
        roomy = format_disk(Geometry(16, 1, 65536), ECHO)
        Drive(MemoryDisk(roomy), bytearray(), Options(turn=40, rounds=1), None, b"ab" * 70).run()
        self.assertEqual((keeper.kept.events, output), (recorded_by(roomy).events, b"ab" * 70))

    def test_versions(self):
        """A disk of version 1 is saved before the first event of its drive, and its history goes on with long runs."""
        self.disk = format_disk(TIGHT, WITHOUT_END, 1)
        keeper = Keeper()
        self.drive(3, keeper, turn=70_000)
        self.assertEqual((keeper.kept.first, keeper.kept.last), (0, 3))
        self.assertEqual(str(keeper.kept.events[1]), "RunLong(hart=0, steps=70000)")

    def test_places(self):
        """It is brought up behind the schedule's note and a sync, and before recovery."""
        disk = ListingDisk(self.disk)
        Drive(disk, bytearray(), Options(events=0), None, keeper=Keeper()).run()
        self.assertEqual(disk.listed, [None, (2560, 24), None, (2048, 1), None, None, None])
        disk = ListingDisk(self.disk)
        with self.assertRaises(Unkept):
            Drive(disk, bytearray(), Options(events=0), None, keeper=Keeper(there=b"words"))
        self.assertEqual(disk.listed, [None])


class Refusals(WithDrives):
    def refused(self, fault, keeper, **how):
        disk, output = bytes(self.disk), bytes(self.output)
        with self.assertRaisesRegex((Unkept, Undriven), f"^{fault}$"):
            self.drive(5, keeper, **how)
        self.assertEqual(self.output, output)
        self.assertEqual(self.disk[4096:], disk[4096:])

    def test_histories(self):
        """The schedule is noted then, and nothing else has changed."""
        self.refused("NotAHistory", Keeper(there=b"words"))
        self.assertEqual(schedule_of(self.disk), Schedule(5))
        kept, _ = self.kept_by(20)
        self.drive(60)
        self.refused("HistoryBehind", Keeper(kept))
        self.refused("HistoryDiffers", Keeper(recorded_by(format_disk(TIGHT, PUTS_A))))
        apart = bytearray(self.disk)
        serve_disk(apart, b"tick 77\ncommit\n")
        self.refused("HistoryDiffers", Keeper(read_history(begun_from(bytes(apart)))[0]))

    def test_order(self):
        """Of the schedule first; of the output behind the history, which is brought up then."""
        kept, _ = self.kept_by(3)
        keeper = Keeper(there=b"words")
        self.refused("ScheduleDiffers", keeper, turn=6)
        self.assertIsNone(keeper.line)
        self.drive(4)
        self.output = bytearray(b"more")
        self.refused("NotAHistory", keeper)
        keeper = Keeper(kept)
        self.refused("OutputDiffers", keeper)
        self.assertEqual((keeper.line, keeper.kept.events), ("appended 4", self.all_events(7)))

    def test_brought_up(self):
        recorded = recorded_by(self.disk)
        self.assertEqual(brought_up(None, bytes(72), recorded), (recorded, "begun"))
        self.assertEqual(begun_from(bytes(self.disk) + b"more"), begun_from(bytes(self.disk)))
        kept, line = brought_up(recorded, b"whatever", recorded)
        self.assertEqual((kept.events, line), ([], "appended 0"))


class Stops(WithDrives):
    def test_stops(self):
        """Whatever a stop of the disk at each call leaves, the history has no event that the disk lacks, and lacks at most the last batch, which the next
        drive appends."""
        formatted, lacks, events = bytes(format_disk(TIGHT, PUTS_FOR_EVER)), Counter(), self.all_events(80, PUTS_FOR_EVER)
        for fill in (b"", b"\xa5"):
            for call in range(1, 1_000):
                device, self.output, keeper = StoppingDisk(formatted, call, filled(fill)), bytearray(), Keeper()
                with suppress(DeviceFault):
                    Drive(device, self.output, Options(TURNS.turn, TURNS.rounds, events=25), None, keeper=keeper).run()
                self.disk = bytearray(device.bytes)
                has_events = recorded_by(self.disk).last
                if keeper.kept is not None:
                    self.assertIn(has_events - keeper.kept.last, (0, 5, 10))
                    self.assertEqual(keeper.kept.events, events[:keeper.kept.last])
                    lacks[has_events - keeper.kept.last] += 1
                kept, line = self.kept_by(10, keeper.kept)
                self.assertEqual((line, kept.events), ("begun" if keeper.kept is None else f"appended {has_events - keeper.kept.last}", events[:has_events + 10]))
                if not device.has_stopped:
                    break
        self.assertGreater(min(lacks[0], lacks[5] + lacks[10]), 2)

    def test_faults(self):
        """A history that fails at a batch: the disk has that, its output isn't put out yet, and the same drive goes on."""
        class Failing(Keeper):
            def append(self, events):
                if self.kept.last == 20:
                    raise DeviceFault
                super().append(events)

        self.disk, keeper = format_disk(TIGHT, PUTS_FOR_EVER), Failing()
        with self.assertRaises(DeviceFault):
            self.drive(60, keeper)
        put = len(self.output)
        session = Session(MemoryDisk(bytearray(self.disk)))
        self.assertEqual((keeper.kept.last, session.events, session.confirmed), (20, 30, put))
        self.assertGreater(session.released, put)
        kept, line = self.kept_by(30, keeper.kept)
        self.assertEqual((line, kept.events), ("appended 10", self.all_events(60, PUTS_FOR_EVER)))


class Cases(WithDrives):
    def test_drawn(self):
        """Steps of each kind, and in the history's place files of each."""
        cases = [case_of("kept", seed) for seed in range(1, 41)]
        steps = Counter(type(step) for case in cases for step in case.steps)
        self.assertTrue(all(steps[kind] > 5 for kind in (KeptDrive, DriveStep, Lines, Placed, BringUp, Resizing)), steps)
        placed = Counter(step.which for case in cases for step in case.steps if isinstance(step, Placed))
        self.assertTrue(all(placed[which] > 2 for which in (MISSING, BYTES, OLDER, APART_FROM, OTHER)), placed)
        self.assertTrue(all(isinstance(case.steps[-1], KeptDrive) for case in cases))
        self.assertEqual({case.is_made for case in cases}, {False, True})


if __name__ == "__main__":
    unittest.main()
