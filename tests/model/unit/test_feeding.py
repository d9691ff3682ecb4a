"""The input of a drive: what is given next, the slots of the record byte by byte, and what each drive is told, by hand."""
import unittest
from contextlib import suppress

from cases.driven import Feeding as Told
from cases.driven import UNFED, drive_of_model, faults_of_start, tells
from model.devices import DeviceFault, MemoryDisk, StoppingDisk
from model.events import Eof, Input, Place, Run, Tick
from model.feeding import Slot, Supply, Undriven, next_input, slot_at, slot_of, taken_by
from model.layout import Geometry, format_disk
from model.machine import Machine
from model.plans import Drive, Options
from model.recovery import events_of_journal
from model.session import Session
from model.switches import switched
from unit.test_rows import image

LOOP = image("0000006f")
# getc; ends behind the last byte by exit 0, else putc and on. x6 is -1.
ECHO = image("fff00313 00300893 00000073 00650863 00200893 00000073 fedff06f 00000513 00100893 00000073")
SMALL = Geometry(16, 1, 4096)  # 348,160 bytes
BYTES = bytes(range(256)) * 20


def fed(disk, options, length, output=None, said=None):
    return Drive(MemoryDisk(disk), bytearray() if output is None else output, options, None, BYTES[:length], said)


def events_made(drive):
    """All that are taken until it ends."""
    events, offer = [], drive.offer

    def offer_and_keep(event):
        before, end = drive.session.events, offer(event)
        events.extend([event] * (drive.session.events - before))
        return end

    drive.offer = offer_and_keep
    drive.run()
    return events


class ListingDisk(MemoryDisk):
    """Lists its calls: offset and length of a write, None for a sync."""

    def __init__(self, contents):
        super().__init__(contents)
        self.listed = []

    def write(self, at, data):
        self.listed.append((at, len(data)))
        super().write(at, data)

    def sync(self):
        self.listed.append(None)
        super().sync()


class Feeding(unittest.TestCase):
    def setUp(self):
        switch = switched(keys=True, long_runs=True)
        switch.__enter__()
        self.addCleanup(switch.__exit__, None, None, None)

    def given(self, length):
        """The lengths of what is given one behind the other to a guest that doesn't read, -1 for the end of input."""
        machine, taken, lengths = Machine(16, 1, LOOP), 0, []
        while (event := next_input(BYTES[:length], taken, machine)) is not None:
            machine.step(event)
            taken += taken_by([event])
            lengths.append(-1 if event == Eof() else len(event.data))
        return lengths

    def test_pieces(self):
        for length, lengths in [(0, [-1]), (1, [1, -1]), (63, [63, -1]), (64, [64, -1]), (65, [64, 1, -1]), (4095, [64] * 63 + [63, -1]),
                                (4096, [64] * 64 + [-1]), (4097, [64] * 64), (4160, [64] * 64)]:
            self.assertEqual(self.given(length), lengths)

    def test_room(self):
        """Where the queue has 63 bytes of room a whole piece waits, and the last 63 bytes go in."""
        machine = Machine(16, 1, LOOP)
        machine.input = list(range(33)) + [0] * 4000
        self.assertIsNone(next_input(BYTES[:200], 0, machine))
        self.assertIsNone(next_input(BYTES[:64], 0, machine))
        self.assertEqual(next_input(BYTES[:200], 137, machine), Input(BYTES[137:200]))
        self.assertEqual(next_input(BYTES[:200], 200, machine), Eof())
        del machine.input[0]
        self.assertEqual(next_input(BYTES[:200], 0, machine), Input(BYTES[:64]))

    def test_behind_the_end(self):
        machine = Machine(16, 1, LOOP)
        machine.close_input()
        self.assertIsNone(next_input(b"", 0, machine))
        self.assertIsNone(next_input(b"a", 0, machine))

    def events_of(self, harts, length, count):
        disk = format_disk(Geometry(16, harts, 65536), ECHO)
        drive = fed(disk, Options(turn=3, rounds=50, events=count), length)
        self.assertEqual(drive.run(), 5)
        return events_of_journal(drive.session.disk, drive.session.recovered)[0]

    def test_before_the_schedule(self):
        """On one hart a round has three places. 65 bytes and the end are events 0 to 2, so the thread's place is at event 3."""
        self.assertEqual(self.events_of(1, 65, 8), [Input(BYTES[:64]), Input(BYTES[64:65]), Eof(), Place(0, 1), Run(0, 3), Tick(1), Run(0, 3), Run(0, 3)])

    def test_events_count_in_the_round(self):
        """The end alone is event 0. Event 1 is at the place for running, but no hart runs; event 2 is the tick."""
        self.assertEqual(self.events_of(1, 0, 4), [Eof(), Place(0, 1), Tick(1), Run(0, 3)])
        self.assertEqual(self.events_of(1, 1, 4), [Input(b"\0"), Eof(), Tick(1), Place(0, 1)])

    def test_a_piece_once_there_is_room(self):
        """64 Inputs fill the queue. Event 64 is at place 1, 65 the tick. The echo's first byte is read by its third step."""
        events = self.events_of(1, 4097, 69)
        self.assertEqual(events[:64], [Input(BYTES[at:at + 64]) for at in range(0, 4096, 64)])
        self.assertEqual(events[64:], [Place(0, 1), Tick(1), Run(0, 3), Input(BYTES[4096:4097]), Eof()])

    def test_no_more_than_wanted(self):
        """`--events` counts Inputs; the next drive goes on."""
        disk, output = format_disk(SMALL, ECHO), bytearray()
        for count, taken in ((0, 0), (1, 64), (1, 65), (0, 65), (1, 65)):
            drive = fed(disk, Options(events=count), 65, output)
            self.assertEqual((drive.run(), drive.supply.taken), (5, taken))
        self.assertTrue(drive.session.machine.is_input_closed)
        self.assertEqual(fed(disk, Options(), 65, output).run(), 0)
        self.assertEqual(output, BYTES[:65])

    def test_slot(self):
        self.assertEqual(Slot(2, 62, 3968).encoding().hex(), "434b525446454544" "0100000000000000" "0200000000000000"
                                                             "3e00000000000000" "800f000000000000")
        self.assertEqual([slot_at(SMALL, area) for area in (0, 1)], [348160, 350208])

    def test_room_on_the_disk(self):
        """A disk becomes longer to 352,256 bytes, by zeros; a longer one and what is there stay."""
        for length in (348160, 348161, 352255, 352256, 352257):
            disk = format_disk(SMALL, LOOP) + bytearray([7] * (length - 348160))
            before = bytes(disk)
            fed(disk, Options(events=0), 1).run()
            self.assertEqual(disk, before + bytes(max(0, 352256 - length)))

    def test_full_batch(self):
        """62 Inputs have 4,092 bytes of events, and one more has no room in the batch. Their commit leaves no room, so a checkpoint comes
        with nothing pending, of generation 2 into area 1: 62 events took 3,968 bytes."""
        disk = format_disk(SMALL, LOOP)
        self.assertEqual(fed(disk, Options(rounds=50, events=62), 4097).run(), 5)
        self.assertEqual(disk[350208:350248], bytes.fromhex("434b525446454544 0100000000000000 0200000000000000 3e00000000000000 800f000000000000"))
        self.assertEqual(disk[348160:350208] + disk[350248:], bytes(2048 + 2008))
        self.assertEqual(fed(disk, Options(events=0), 4097).supply.taken, 3968)

    def test_two_checkpoints(self):
        """A commit each round of three events, which leaves 4,095 - 201 bytes of room, and so a checkpoint: area 1, area 0, area 1."""
        disk = format_disk(SMALL, LOOP)
        self.assertEqual(fed(disk, Options(rounds=1, events=6), 4097).run(), 5)
        self.assertEqual(slot_of(MemoryDisk(disk), SMALL, 1), Slot(2, 3, 192))
        self.assertEqual(slot_of(MemoryDisk(disk), SMALL, 0), Slot(3, 6, 384))
        self.assertEqual(disk[348160 + 16:348160 + 40].hex(), "0300000000000000" "0600000000000000" "8001000000000000")
        self.assertEqual(fed(disk, Options(rounds=1, events=2), 4097).run(), 5)
        self.assertEqual([slot_of(MemoryDisk(disk), SMALL, area) for area in (0, 1)], [Slot(3, 6, 384), Slot(4, 8, 512)])

    def test_order_of_calls(self):
        """The slot is written and synced behind the commit, and before the first step of the checkpoint: that closes journal 1, as the gate of
        area 1 is closed, and of the next one that the open gate of area 0 is closed."""
        device = ListingDisk(format_disk(SMALL, LOOP))
        Drive(device, bytearray(), Options(rounds=1, events=6), None, BYTES).run()
        slots = [call for call, listed in enumerate(device.listed) if listed in ((348160, 40), (350208, 40))]
        around = [device.listed[call - 2:call + 4] for call in slots]
        self.assertEqual(around[0], [(339968, 1), None, (350208, 40), None, (344064, 1), (176128, 176 + 192)])
        self.assertEqual(around[1], [(344064, 1), None, (348160, 40), None, (4096, 1), None])

    def test_slot_and_journal(self):
        """With a journal of 8,192 bytes: commits of 201 bytes each three events, and a checkpoint once fewer than 4,099 are left, which is
        behind 21 of them. The next two events stand in the journal."""
        disk, geometry = format_disk(Geometry(16, 1, 8192), LOOP), Geometry(16, 1, 8192)
        self.assertEqual(fed(disk, Options(rounds=1, events=60), 6000).run(), 5)
        self.assertEqual([slot_of(MemoryDisk(disk), geometry, area) for area in (0, 1)], [None, None])
        self.assertEqual(fed(disk, Options(rounds=1, events=3), 6000).run(), 5)
        self.assertEqual([slot_of(MemoryDisk(disk), geometry, area) for area in (0, 1)], [None, Slot(2, 63, 4032)])
        drive = fed(disk, Options(rounds=1, events=1), 6000)
        self.assertEqual((drive.run(), drive.supply.taken), (5, 4096))
        self.assertEqual(fed(disk, Options(events=0), 6000).supply.taken, 4096)

    def told(self, disk, length=4097, said=None):
        """How much the program has taken, or the name of the fault; nothing of the disk changes then."""
        before = bytes(disk)
        try:
            return fed(disk, Options(), length, said=said).supply.taken
        except Undriven as fault:
            self.assertEqual(disk, before)
            return str(fault)

    def saved_without(self):
        """By lines, in the generation 2: 5 bytes before the checkpoint, and 2 in the journal."""
        disk = format_disk(SMALL, LOOP)
        session = Session(MemoryDisk(disk))
        session.submit(Input(b"12345"))
        session.checkpoint()
        session.submit(Input(b"67"))
        session.commit()
        return disk

    def test_told_by_lines(self):
        """In the first generation the journal tells all. Of a saved state nobody knows, so what is said counts up to that."""
        disk = format_disk(SMALL, LOOP)
        self.assertEqual(self.told(bytearray(disk)), 0)
        session = Session(MemoryDisk(disk))
        session.submit(Input(b"123"))
        session.submit(Tick(1))
        session.submit(Input(b"4"))
        session.commit()
        self.assertEqual([self.told(bytearray(disk), said=said) for said in (None, 0, 4, 5)], [4, 4, 4, "OffsetDiffers"])
        disk = self.saved_without()
        self.assertEqual([self.told(bytearray(disk), said=said) for said in (None, 5, 0)], ["NotRecorded", 7, 2])

    def test_told_by_slot(self):
        """Of the area in use alone, with its generation, its number of events, its name and its version."""
        whole = self.saved_without() + bytes(4096)

        def told(slot, area=1, said=None):
            disk = bytearray(whole)
            disk[slot_at(SMALL, area):slot_at(SMALL, area) + 40] = slot
            return self.told(disk, said=said)

        self.assertEqual(told(Slot(2, 1, 5).encoding()), 7)
        self.assertEqual([told(Slot(2, 1, 5).encoding(), said=said) for said in (0, 5, 7, 8)], [7, 7, 7, "OffsetDiffers"])
        right = Slot(2, 1, 5).encoding()
        wrong = [Slot(1, 1, 5).encoding(), Slot(3, 1, 5).encoding(), Slot(2, 0, 5).encoding(), Slot(2, 2, 5).encoding(),
                 Slot(2, 1, 2 ** 62).encoding(), b"ckrtfeed" + right[8:], right[:8] + b"\2" + right[9:], bytes(40)]
        self.assertEqual([told(slot) for slot in wrong], ["NotRecorded"] * len(wrong))
        self.assertEqual(told(right, area=0), "NotRecorded")
        self.assertEqual(told(Slot(1, 0, 5).encoding(), area=0), "NotRecorded")

    def test_fresh_disk_needs_no_slot(self):
        """Whatever stands there."""
        disk = format_disk(SMALL, LOOP) + bytearray(Slot(1, 0, 7).encoding()) + bytes(4056)
        self.assertEqual(self.told(disk), 0)

    def test_short_file(self):
        disk = format_disk(SMALL, LOOP)
        fed(disk, Options(events=2), 4097).run()
        self.assertEqual([self.told(disk, length) for length in (128, 127, 0)], [128, "InputTooShort", "InputTooShort"])

    def fit(self, journal):
        """Of a guest that put 65 bytes and ended: what is told of outputs of these lengths, nothing of those that fit."""
        disk = format_disk(Geometry(16, 1, journal), ECHO)
        fed(disk, Options(), 65).run()
        told = []
        for length in (0, 1, 64, 65, 66):
            with suppress(Undriven):
                fed(bytearray(disk), Options(), 65, bytearray(length))
                continue
            told += faults_of_start(disk, bytearray(length), UNFED)
        return [(str(fault), *fault.told) for fault in told]

    def test_outputs(self):
        """Without a checkpoint the disk takes nothing for put out. With the shortest journal one comes behind the last commit, too."""
        self.assertEqual(self.fit(65536), [("OutputDiffers", "66", "0", "65")])
        self.assertEqual(self.fit(4096), [("OutputDiffers", str(length), "65", "65") for length in (0, 1, 64, 66)])

    def test_what_is_told(self):
        """Both numbers of a short file; the disk's own number, and not the one that was said; the option that helps; of two faults both."""
        disk = format_disk(SMALL, LOOP)
        fed(disk, Options(events=2), 4097).run()
        told = [[(str(fault), *fault.told) for fault in faults_of_start(disk, bytearray(length), Told(said=said), BYTES[:held])]
                for length, held, said in ((0, 127, None), (0, 128, 128), (0, 128, 129), (3, 127, None))]
        short = ("InputTooShort", "127", "128")
        self.assertEqual(told, [[short], [], [("OffsetDiffers", "128")], [("OutputDiffers", "3", "0", "0"), short]])
        self.assertEqual([(str(fault), *fault.told) for fault in faults_of_start(self.saved_without(), b"", Told(), BYTES)], [("NotRecorded", "--input-from")])

    def test_offset_out_of_range(self):
        """Where the words are wrong nothing is looked at: no disk either."""
        for feeding, is_out in ((Told(said=2 ** 62), True), (Told(said=2 ** 62 - 1), False), (Told(is_fed=False, said=0), True), (Told(), False)):
            self.assertEqual(feeding.is_out_of_range, is_out)
        self.assertEqual([str(fault) for fault in drive_of_model(None, None, Options(), None, Told(said=2 ** 62), b"", "in")[1]], ["Range"])

    def test_numbers_in_a_text(self):
        """Whole ones, and a path whatever stands beside it."""
        text = "the input folder/in: it has 128 bytes, and the program has taken 640: give it"
        self.assertEqual([tells(text, told) for told in ("128", "640", "folder/in", "28", "12", "64", "2", "0")], [True] * 3 + [False] * 5)

    def test_no_plain_file(self):
        """The path is told, or what else is wrong: nobody knows how long the file is."""
        disk = format_disk(SMALL, ECHO)
        before = bytes(disk)
        for said, output, more in ((None, b"", []), (1, b"", [("OffsetDiffers", "0")]), (0, b"a", [("OutputDiffers", "1", "0", "0")])):
            status, faults = drive_of_model(disk, output, Options(), None, Told(way="pipe", said=said), b"ab", "/dev/stdin")
            self.assertEqual((status, [(str(fault), *fault.told) for fault in faults], disk), (1, [("File", "/dev/stdin"), *more], before))

    def test_older_disk(self):
        """Of version 1: a checkpoint before the first event, with its slot."""
        disk = format_disk(SMALL, LOOP, 1)
        self.assertEqual(fed(disk, Options(events=1), 65).run(), 5)
        self.assertEqual(slot_of(MemoryDisk(disk), SMALL, 1), Slot(2, 0, 0))
        self.assertEqual(self.told(disk), 64)

    def test_all_is_given(self):
        """The Inputs of a drive, joined, are the file, and the end comes once, behind them."""
        for length in (0, 1, 63, 64, 65, 4096, 4097):
            output = bytearray()
            events = events_made(fed(format_disk(SMALL, ECHO), Options(turn=5_000), length, output))
            self.assertEqual(b"".join(event.data for event in events if isinstance(event, Input)), BYTES[:length])
            self.assertEqual(output, BYTES[:length])
            self.assertEqual(taken_by(events[:events.index(Eof())]), length)
            self.assertEqual(events.count(Eof()), 1)

    def test_stops(self):
        """Stopped at each call, by three fills: the record tells what just those events took that are recovered, and the drive that is
        given again comes to what an unbroken one comes to."""
        options, length, formatted = Options(turn=60, rounds=2, events=13), 70, format_disk(SMALL, ECHO) + bytes(4096)
        events = events_made(fed(bytearray(formatted), options, length))
        for leave in (lambda offsets, old, new: old, lambda offsets, old, new: new, lambda offsets, old, new: b"\xa5" * len(offsets)):
            for call in range(1, 1000):
                device, output = StoppingDisk(formatted, call, leave), bytearray()
                with suppress(DeviceFault):
                    Drive(device, output, options, None, BYTES[:length]).run()
                left = device.bytes
                session = Session(MemoryDisk(left))
                self.assertEqual(Supply(session, BYTES[:length]).taken, taken_by(events[:session.events]))
                self.assertEqual(fed(left, Options(turn=60), length, output).run(), 0)
                self.assertEqual(output, BYTES[:length])
                if not device.has_stopped:
                    break
            self.assertGreater(call, 30)
