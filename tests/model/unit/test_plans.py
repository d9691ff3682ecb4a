"""Plans of drives: the generator's own example, rounds by hand, when a drive saves, and that drives of parts are the whole."""
import unittest

from cases.kinds import case_of
from model.devices import MemoryDisk
from model.events import Place, Run, RunLong, Tick
from model.layout import Geometry, format_disk, header_of
from model.machine import Machine
from model.plans import LONGEST_BATCH, Drive, Options, draw, next_event
from model.recovery import events_of_journal, read_area, read_journal
from model.session import Session
from model.switches import switched
from model.threads import Thread, Wait, WaitKind
from unit.test_rows import image

WITHOUT_END = image("0000006f")
# what pcg32-demo of the generator's author prints for seed 42 and stream 54
DEMO = ["a15c02b7", "7b47f409", "ba1d3330", "83d2f293", "bfa4784b", "cbed606e"]


class WithKeys(unittest.TestCase):
    def setUp(self):
        switch = switched(keys=True, long_runs=True)
        switch.__enter__()
        self.addCleanup(switch.__exit__, None, None, None)


class Plans(WithKeys):
    def rounds(self, harts, options, count, threads=1):
        """The first events of a guest whose threads never end."""
        machine = Machine(16, harts, WITHOUT_END)
        for thread in range(2, threads + 1):
            machine.threads[thread] = machine.threads[1].__class__(**vars(machine.threads[1]))
        events = []
        for number in range(count):
            events.append(next_event(options, number, machine))
            machine.step(events[-1])
        return events

    def test_draws(self):
        self.assertEqual(["%08x" % draw(42, count) for count in range(6)], DEMO)

    def test_one_thread(self):
        self.assertEqual(self.rounds(1, Options(turn=5), 6), [Place(0, 1), Run(0, 5), Tick(1), Run(0, 5), Run(0, 5), Tick(1)])

    def test_idle_hart(self):
        self.assertEqual(self.rounds(2, Options(turn=5), 5), [Place(0, 1), Run(0, 5), Run(0, 5), Run(0, 5), Tick(1)])

    def test_two_threads(self):
        """On one hart they take turns, on two each has its own."""
        self.assertEqual(self.rounds(1, Options(turn=70_000), 2, 2), [Place(0, 1), RunLong(0, 70_000)])
        self.assertEqual(self.rounds(1, Options(turn=5), 6, 2), [Place(0, 1), Run(0, 5), Tick(1), Place(0, 2), Run(0, 5), Tick(1)])
        self.assertEqual(self.rounds(2, Options(turn=5), 10, 2), [Place(0, 1), Run(0, 5), Place(1, 2), Run(1, 5), Tick(1),
                                                                Run(0, 5), Run(0, 5), Run(1, 5), Run(1, 5), Tick(1)])

    def test_seed(self):
        """From 0xa15c02b7 on: hart 1 first, where nobody is, so whoever is first placed goes there."""
        events = self.rounds(2, Options(turn=100, seed=42), 2)
        self.assertEqual(events, [Place(0xa15c02b7 % 2, 1), Run(1, 0x7b47f409 // 8 % 100 + 1)])

    def test_saving(self):
        """A commit behind each two rounds, and a checkpoint only where nothing is pending and the journal has less than a batch left."""
        disk = format_disk(Geometry(16, 1, 8192), WITHOUT_END)
        drive = Drive(MemoryDisk(disk), bytearray(), Options(turn=1, rounds=2, events=6), None)
        self.assertEqual(drive.run(), 5)
        device = MemoryDisk(disk)
        found = read_area(device, drive.session.geometry)
        self.assertEqual([found.generation, len(events_of_journal(device, found)[0])], [1, 6])
        drive = Drive(device, bytearray(), Options(turn=1, rounds=2, events=3_000), None)
        while drive.session.recovered.generation == 1:
            self.assertIsNone(drive.step())
        self.assertEqual(drive.unacknowledged, 0)
        older, newer = (header_of(device, drive.session.geometry, area) for area in (0, 1))
        batches, used = read_journal(device.read(drive.session.geometry.journal_at(0), 8192), older.version)
        self.assertEqual(older.events + sum(map(len, batches)), newer.events)
        self.assertLess(8192 - 1 - used, LONGEST_BATCH)

    def test_parts(self):
        """Drives of some events each come to what one drive comes to."""
        for seed in range(1, 13):
            case = case_of("drives", seed)
            parts, whole = case.disk(), case.disk()
            outputs = bytearray(), bytearray()
            for options in case.drives:
                Drive(MemoryDisk(parts), outputs[0], options, None).run()
            Drive(MemoryDisk(whole), outputs[1], case.unbroken(), None).run()
            states = [Session(MemoryDisk(disk)) for disk in (parts, whole)]
            self.assertEqual(outputs[0], outputs[1])
            self.assertEqual(states[0].events, states[1].events)
            self.assertEqual(states[0].machine.threads[1], states[1].machine.threads[1])


def machine_of(on, ready, waiting=(), ended=()):
    """One whose harts have these threads, 0 for none."""
    machine = Machine(16, len(on), WITHOUT_END)
    machine.threads = {number: Thread() for number in [*filter(None, on), *ready, *waiting]}
    machine.threads |= {number: Thread(has_ended=True) for number in ended}
    machine.harts[:len(on)] = on
    machine.waits = [Wait(number, WaitKind.INPUT) for number in waiting]
    return machine


class Owners(WithKeys):
    """Whom a round puts onto a hart. On one hart it has three places, so round r begins behind 3 r events; on two five, on eight seventeen."""

    def placed(self, count, on, ready, seed=None, **others):
        """The thread that is put onto a hart behind so many events; None where one runs."""
        event = next_event(Options(turn=5, seed=seed), count, machine_of(on, ready, **others))
        return event.thread if isinstance(event, Place) else None

    def test_ready(self):
        """Round 4 is thread 5's, which goes onto an occupied hart and onto an empty one; where no hart runs at the place for running, too."""
        self.assertEqual(self.placed(12, [1], [2, 5, 7]), 5)
        self.assertEqual([self.placed(12, [0], [2, 5, 7]), self.placed(13, [0], [2, 5, 7])], [5, 5])
        self.assertEqual(next_event(Options(turn=5), 13, machine_of([1], [2, 5, 7])), Run(0, 5))
        self.assertEqual(next_event(Options(turn=5), 14, machine_of([1], [2, 5, 7])), Tick(1))

    def test_which_hart(self):
        """That of the place, also where the other one is empty."""
        for count, hart in ((20, 0), (22, 1)):
            self.assertEqual(next_event(Options(), count, machine_of([0, 3], [2, 5])), Place(hart, 5))
            self.assertEqual(next_event(Options(), count, machine_of([3, 0], [2, 5])), Place(hart, 5))

    def test_not_ready(self):
        """Where it waits, has ended, or isn't there; where it is on this hart or on the other one. Then the next one above goes onto an
        occupied hart, or the least; and where nobody is ready the thread there runs."""
        self.assertEqual(self.placed(12, [1], [2, 7], waiting=[5]), 2)
        self.assertEqual(self.placed(12, [2], [1, 7], ended=[5]), 7)
        self.assertEqual(self.placed(12, [7], [2, 6]), 2)
        self.assertEqual(self.placed(12, [5], [2, 6]), 6)
        self.assertEqual(self.placed(20, [3, 5], [2, 7]), 7)
        self.assertEqual(next_event(Options(turn=5), 12, machine_of([1], [], waiting=[5])), Run(0, 5))

    def test_start(self):
        """Onto an empty hart goes the first from the owner on, where there is one. The owners of rounds 1 to 6 are threads 2 to 7."""
        ready = [1, 4, 7]
        self.assertEqual([self.placed(3 * number, [0], ready) for number in range(1, 7)], [4, 4, 4, 7, 7, 7])
        self.assertEqual([self.placed(3 * number + 1, [0], ready) for number in range(1, 7)], [4, 4, 4, 7, 7, 7])

    def test_folded_start(self):
        """With 7 for the greatest that is ready an owner above begins as one of 1 to 7: 10 and 17 as 3, 13 as 6, 15 as 1, 63 as 7. Neither one
        that waits nor one on the other hart is ready."""
        for owner, thread in ((10, 4), (17, 4), (13, 7), (15, 2), (63, 7)):
            self.assertEqual(self.placed(3 * (owner - 1), [0], [2, 4, 7]), thread)
            self.assertEqual(self.placed(3 * (owner - 1), [0], [2, 4, 7], waiting=[60]), thread)
            self.assertEqual(self.placed(5 * (owner - 1), [0, 60], [2, 4, 7]), thread)
        self.assertEqual([self.placed(3 * number, [0], [3]) for number in range(64)], [3] * 64)

    def test_start_by_lot(self):
        """Of seed 42 the lots behind 0, 1 and 3 events, by 8, are 0x142b8056, 0x0f68fe81 and 0x107a5e52, so 22, 1 and 18 behind whole
        sixty-fours, and the starts are 23, 2 and 19. The owners are threads 1, 1 and 2."""
        self.assertEqual([self.placed(0, [0], ready, 42) for ready in ([2, 20, 40], [2, 4, 20], [23, 64])], [40, 4, 23])
        self.assertEqual([self.placed(1, [0], ready, 42) for ready in ([2, 4], [3, 40])], [2, 3])
        self.assertEqual([self.placed(3, [0], ready, 42) for ready in ([1, 19, 30], [1, 5, 12], [1, 4, 6])], [19, 12, 1])
        self.assertEqual(self.placed(3, [0], [1, 2, 6], 42), 2)

    def test_owner_with_a_seed(self):
        """It comes before the lot, and onto an occupied hart no lot has a part. Lot 0 has hart 1 of two, where thread 9 is, then nobody."""
        self.assertEqual([self.placed(0, [0], [1, 2, 23], 42), self.placed(0, [9], [1, 2, 23], 42)], [1, 1])
        self.assertEqual([self.placed(0, [9], [2, 12, 23], 42), self.placed(0, [30], [2, 12, 23], 42)], [12, 2])
        for on in ([0, 9], [9, 0]):
            self.assertEqual(next_event(Options(seed=42), 0, machine_of(on, [1, 2])), Place(1, 1))

    def test_last_owner(self):
        """Round 63 is thread 64's, and round 64 thread 1's again. Round 65 is thread 2's, which isn't ready."""
        ready = [1, 4, 63, 64]
        self.assertEqual([self.placed(3 * number, [3], ready) for number in (61, 62, 63, 64, 65, 66, 67)], [4, 63, 64, 1, 4, 4, 4])
        self.assertEqual([self.placed(3 * number, [0], ready) for number in (61, 62, 63, 64, 65)], [63, 63, 64, 1, 4])
        self.assertEqual([self.placed(17 * 63 + place, [3] * 8, ready) for place in (0, 14, 17, 31)], [64, 64, 1, 1])

    def test_all_rounds(self):
        """They go on so, without an end."""
        for begin in (0, 64, 128, 64 * 10 ** 16):
            self.assertEqual([self.placed(3 * (begin + number), [0], range(1, 65)) for number in range(64)], [*range(1, 65)])
            self.assertEqual([self.placed(17 * (begin + number) + 16, [0] * 7 + [64], range(1, 64)) for number in range(64)], [None] * 64)

    def test_round_of_two_harts(self):
        """Round 1 is events 5 to 9. Thread 2's places are 5 and 7; behind both, at place 3, a hart runs."""
        self.assertEqual([self.placed(count, [6, 7], [1, 2, 3]) for count in range(4, 11)], [None, 2, None, 2, None, None, 3])
        self.assertEqual([self.placed(count, [0, 0], [1, 2, 3]) for count in range(4, 11)], [None, 2, 2, 2, 2, None, 3])

    def test_who_sleeps_again_and_again(self):
        """Thread 1 sleeps for a tick, and is ready again in each round. Threads 2 and 3 get the hart in their own rounds. Round 3 is nobody's,
        so onto the hart that thread 3 is on goes the least."""
        machine, events = machine_of([0], [1, 2, 3]), []
        for count in range(12):
            events.append(next_event(Options(turn=5), count, machine))
            if isinstance(events[-1], Place):
                machine.harts[0] = events[-1].thread
            elif isinstance(events[-1], Tick):
                machine.waits = []
            elif machine.harts[0] == 1:
                machine.block(1, WaitKind.SLEEP, deadline=count + 1)
        self.assertEqual([event.thread for event in events if isinstance(event, Place)], [1, 2, 3, 1])
        self.assertEqual(events[1::3] + events[2::3], [Run(0, 5)] * 4 + [Tick(1)] * 4)
