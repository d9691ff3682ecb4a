"""The worked examples of disks, checkpoints, listings and lines, on the model."""
import struct
import unittest

from model.devices import DeviceFault, MemoryDisk, StoppingDisk, filled
from model.events import Eof, Input, Place, Run, Tick
from model.layout import Geometry, Unformatted, format_disk, format_onto
from model.lines import serve, serve_disk
from model.listing import lines_of_state, listing
from model.recovery import Unrecovered, recover
from model.session import Session
from unit.test_tables import crowd

SMALL = Geometry(16, 1, 4096)
FILLS = [b"\xa5", b"\x00", b"", b"\xff", b"\xa5\x00", b"\x07\xa5\xff"]
AREAS, JOURNALS = (4096, 172032), (339968, 344064)


def image(words):
    return struct.pack(f"<{len(words.split())}I", *(int(word, 16) for word in words.split()))


PUTS_A = image("04100513 00200893 00000073 00000513 00100893 00000073")
GETS = image("00300893 00000073 00200893 00000073")
STORES, STORES_ZERO = image("000022b7 0052a023"), image("000022b7 0002a023")  # one word, to 0x2000
JOINS = image("00001537 02850513 04200593 00a00893 00000073 00058513 00b00893 00000073 00100893 00000073 00200893 00000073 "
              "00008067")


def submit(session, *events):
    return [session.submit(event)[1] for event in events]


def replies(contents, *lines):
    return serve_disk(contents, b"".join(line.encode() + b"\n" for line in lines))


class Lines(unittest.TestCase):
    def test_first_run(self):
        self.assertEqual(replies(format_disk(SMALL, PUTS_A), "place 0 1", "run 0 6", "commit", "quit"),
                         ["ok 1 placed", "ok 2 ran 6 end", "ack 2", "out 0 41"])

    def test_illegal(self):
        disk = format_disk(SMALL, b"")
        self.assertEqual(replies(disk, "place 0 1", "run 0 1", "run 0 1", "checkpoint"),
                         ["ok 1 placed", "ok 2 ran 1 end", "no 1 Ended", "ack 2"])
        self.assertIn("status fault 1 00001000 Illegal\n", listing(disk))

    def test_refusals(self):
        self.assertEqual(replies(format_disk(SMALL, PUTS_A), "run 0 5", "place 3 1", "place 0 2", "place 0 1", "place 0 1"),
                         ["no 5 HartIdle", "no 2 NoSuchHart", "no 3 NoSuchThread", "ok 1 placed", "no 4 NotReady"])
        runs = replies(format_disk(SMALL, image("00200893 00000073 ffdff06f")), "place 0 1", *17 * ["run 0 65535"])
        self.assertEqual(runs, ["ok 1 placed"] + [f"ok {k} ran 2048 on" for k in range(2, 18)] + ["no 9 OutputFull"])

    def test_malformed(self):
        lines = ["", "jump", "place 0", "run 0 x", "in 4", "run 0 0", "tick 4294967296", 161 * "a"]
        self.assertEqual(replies(format_disk(SMALL, b""), *lines),
                         ["no 31 Unknown", "no 31 Unknown", "no 32 Number", "no 33 Hex", "no 34 Range", "no 34 Range",
                          "no 35 TooLong"])
        self.assertEqual(replies(format_disk(SMALL, b""), "checkpoint 1", "Checkpoint", "checkpoint"),
                         ["no 31 Unknown", "no 31 Unknown", "ack 0"])

    def test_ends_of_lines(self):
        """A carriage return before a line feed is dropped and not counted; at the end of input it is a byte of its word."""
        rows = [(b"a" * 160 + b"\r\n", ["no 31 Unknown"]), (b" " * 161 + b"\n", ["no 35 TooLong"]), (b" " * 160 + b"\n", []),
                (b"tick 1\r\n\r\n", ["ok 1 ticked 0"]), (b"tick 1", ["ok 1 ticked 0"]), (b"tick 1\r", ["no 32 Number"]),
                (b"tick 1\r\r\n", ["no 32 Number"]), (b"\ttick  01 \n", ["ok 1 ticked 0"]), (b"quit\ntick 1\n", []),
                (b"in 4\nin 4g\nin " + b"aB" * 64, ["no 33 Hex", "no 33 Hex", "ok 1 taken 64"]),
                (b"in " + b"00" * 65, ["no 34 Range"]), (b"tick 4294967295\nplace 0 65\nplace 7 64\nplace 8 x\n",
                                                       ["ok 1 ticked 0", "no 34 Range", "no 2 NoSuchHart", "no 34 Range"])]
        for data, expected in rows:
            self.assertEqual(serve_disk(format_disk(SMALL, b""), data), expected, data)

    def test_input(self):
        self.assertEqual(
            replies(format_disk(SMALL, GETS), "place 0 1", "run 0 9", "in 5a", "run 0 1", "auto 0 2", "commit"),
            ["ok 1 placed", "ok 2 ran 2 off", "ok 3 taken 1", "no 5 HartIdle", "ok 4 placed", "ok 5 ran 2 on", "ack 5",
             "out 0 5a"])

    def test_two_threads(self):
        self.assertEqual(
            replies(format_disk(SMALL, JOINS), "place 0 1", "run 0 99", "place 0 2", "run 0 99", "place 0 1", "run 0 99", "commit"),
            ["ok 1 placed", "ok 2 ran 8 off", "ok 3 placed", "ok 4 ran 4 off", "ok 5 placed", "ok 6 ran 2 end", "ack 6", "out 0 42"])

    def test_checkpoint_in_the_place_of_commit(self):
        """The same replies as with commits, in one life or several."""
        disk = format_disk(SMALL, JOINS)
        self.assertEqual(replies(disk, "place 0 1", "run 0 99", "checkpoint"), ["ok 1 placed", "ok 2 ran 8 off", "ack 2"])
        self.assertEqual(replies(disk, "place 0 2", "run 0 99", "checkpoint"),
                         ["ok 3 placed", "ok 4 ran 4 off", "ack 4", "out 0 42"])
        self.assertEqual(replies(disk, "place 0 1", "run 0 99", "checkpoint", "run 0 1"),
                         ["out 0 42", "ok 5 placed", "ok 6 ran 2 end", "ack 6", "no 1 Ended"])
        self.assertEqual(replies(disk, "checkpoint"), ["ack 6"])


class Formatted(unittest.TestCase):
    def test_bytes(self):
        disk = format_disk(SMALL, PUTS_A)
        self.assertEqual(disk[0], 0xA5)
        self.assertEqual(disk[8:32].hex(" "), "43 4b 52 54 44 49 53 4b 01 00 00 00 10 00 00 00 01 00 00 00 00 10 00 00")
        self.assertEqual(disk[4096], 0xA5)
        self.assertEqual(struct.unpack("<QQQII", disk[4104:4136]), (1, 0, 0, 170, 1))
        self.assertEqual(disk[4096 + 102400 + 4096:][:24], PUTS_A)
        self.assertEqual((SMALL.area_at(0), SMALL.area_at(1)), AREAS)
        self.assertEqual((SMALL.journal_at(0), SMALL.journal_at(1)), JOURNALS)
        self.assertEqual(Geometry(64, 1, 65536).size, 864256)

    def test_sizes(self):
        self.assertEqual(SMALL.size, 348160)
        for length, contents, refusal in ((348160, 61440, None), (348159, 0, "TooSmall"), (348160, 61441, "ImageTooLong")):
            try:
                format_onto(MemoryDisk(bytearray(length)), SMALL, bytes(contents))
                found = None
            except Unformatted as fault:
                found = str(fault)
            self.assertEqual(found, refusal)
        with self.assertRaisesRegex(Unformatted, "AlreadyFormatted"):
            format_onto(MemoryDisk(format_disk(SMALL, b"")), SMALL, b"")
        for wrong in (Geometry(15, 1, 4096), Geometry(16, 9, 4096), Geometry(16, 1, 4097), Geometry(65537, 1, 4096)):
            with self.assertRaisesRegex(Unformatted, "BadConfig"):
                format_onto(MemoryDisk(bytearray(1)), wrong, bytes(99999999))

    def test_stopped(self):
        """A stop at any call leaves no formatted disk, or an empty list of events."""
        for fill in FILLS:
            for call in range(1, 99):
                disk = StoppingDisk(bytes(SMALL.size), call, filled(fill))
                try:
                    format_onto(disk, SMALL, PUTS_A)
                    break
                except DeviceFault:
                    pass
                try:
                    found = recover(MemoryDisk(disk.bytes))
                    self.assertEqual((found.events, found.generation), (0, 1))
                except Unrecovered as fault:
                    self.assertEqual(str(fault), "NotFormatted")
            self.assertEqual(call, 1 + 1 + 15 + 1 + 1 + 1 + 1 + 1 + 1 + 2 + 1)


class Changed(unittest.TestCase):
    """A formatted disk of zeros, changed in one place."""

    def outcome(self, *changes, length=None):
        disk = format_disk(SMALL, b"")[:length]
        for at, text in changes:
            data = bytes.fromhex(text)
            disk[at:at + len(data)] = data
        try:
            found = recover(MemoryDisk(disk))
        except Unrecovered as fault:
            return str(fault)
        return found.events, found.generation

    def test_table(self):
        header, other, journal = AREAS[0], AREAS[1], JOURNALS[0]
        rows = [
            ("NotFormatted", [(8, "44")]), ("Damaged", [(20, "0f")]), ("Damaged", [(24, "09")]), ("Damaged", [(28, "0110")]),
            ("Damaged", [(header + 8, "00")]), ("Version", [(header + 36, "09")]), ("Damaged", [(header + 32, "ab")]),
            ("Damaged", [(header + 32, "018001")]), ((0, 1), [(other, "a5")]), ("Damaged", [(other, "a5"), (other + 8, "01")]),
            ((1, 1), [(journal, "a5 03 00 01 00 01 00")]), ("Damaged", [(journal, "a5 03 00 01 00 01 a5")]),
            ("Damaged", [(journal, "a5 04 00 02 00 01 00 00")]), ("Damaged", [(journal, "a5 05 00 05 00 00 00 00 00")]),
            ("Damaged", [(journal, "a5 fd 0f")]), ("Version", [(16, "02")]), ("Damaged", [(header, "00")]),
            ("Damaged", [(other, "a5"), (other + 8, "01"), (header + 36, "09")]), ("Version", [(header + 36, "00")]),
            ("Damaged", [(header + 8, "00"), (header + 36, "09")]), ((0, 1), [(other, "a5"), (other + 36, "09")]),
            ("Version", [(16, "02"), (20, "0f")]), ("Version", [(header + 36, "02"), (header + 32, "ab")]),
            ("Damaged", [(header + 16, "ffffffffffffff3f"), (journal, "a5 03 00 01 00 01 00")]),
            ((2 ** 62 - 1, 1), [(header + 16, "ffffffffffffff3f")]), ("Damaged", [(header + 16, "0000000000000040")]),
            ((2 ** 62 - 1, 1), [(header + 16, "feffffffffffff3f"), (journal, "a5 03 00 01 00 01 00")]),
            ("Damaged", [(header + 24, "0000000000000040")]), ((0, 1), [(header + 24, "ffffffffffffff3f")]),
            ("Damaged", [(header + 24, "00fcffffffffff3f"), (journal, "a5 03 00 01 00 01 00")]),
            ((1, 1), [(header + 24, "fffbffffffffff3f"), (journal, "a5 03 00 01 00 01 00")]),
        ]
        for expected, changes in rows:
            with self.subTest(changes):
                self.assertEqual(self.outcome(*changes), expected)
        full = "a5 fd 0f" + 818 * "05 01 00 00 00" + "03 01 61"
        self.assertEqual(self.outcome((journal, full)), "Damaged")
        self.assertEqual(self.outcome(length=31), "NotFormatted")
        self.assertEqual(self.outcome(length=4096), "Damaged")

    def test_held_at_the_counters_end(self):
        """The offset with the held length stays below 2^62."""
        for offset, expected in ((2 ** 62 - 2, 2), (2 ** 62 - 1, "Damaged")):
            disk = format_disk(SMALL, PUTS_A)
            replies(disk, "place 0 1", "run 0 3", "checkpoint")
            struct.pack_into("<Q", disk, AREAS[1] + 24, offset)
            try:
                found = recover(MemoryDisk(disk)).events
            except Unrecovered as fault:
                found = str(fault)
            self.assertEqual(found, expected)


class Stopped(unittest.TestCase):
    def session(self, at_call, fill=b""):
        return Session(StoppingDisk(format_disk(SMALL, PUTS_A), at_call, filled(fill)))

    def test_bytes_of_a_commit(self):
        session = self.session(3)
        submit(session, Place(0, 1), Run(0, 2))
        self.assertEqual(session.commit(), "no 25 Device")
        at = JOURNALS[0] + 1
        self.assertEqual(session.disk.bytes[at:at + 10].hex(" "), "07 00 01 00 01 02 00 02 00 00")

    def test_commit(self):
        for call, expected in ((2, (0, 0, 0)), (3, (0, 0, 0)), (4, (2, 0, 2)), (5, (2, 0, 2))):
            for fill, events in zip(FILLS, expected):
                session = self.session(call, fill)
                submit(session, Place(0, 1), Run(0, 2))
                self.assertEqual(session.commit(), "no 25 Device")
                self.assertEqual(recover(MemoryDisk(session.disk.bytes)).events, events)
                self.assertEqual(submit(session, Tick(1)) + [session.commit(), session.checkpoint()], 3 * ["no 21 Failed"])

    def test_checkpoint(self):
        for fill in FILLS:
            for call in range(31, 39):
                session = self.session(call, fill)
                submit(session, Place(0, 1))
                self.assertEqual([session.commit(), session.checkpoint()], ["ack 1", "ack 1"])
                self.assertEqual((session.recovered.generation, session.recovered.area), (2, 1))
                submit(session, Run(0, 2))
                self.assertEqual([session.commit(), session.checkpoint()], ["ack 2", "no 25 Device"])
                found = recover(MemoryDisk(session.disk.bytes))
                gate_open = session.disk.bytes[AREAS[0]] == 0xA5 and call > 36
                self.assertEqual((found.events, found.generation), (2, 3 if gate_open else 2))

    def test_pending_at_a_checkpoint(self):
        """What was acknowledged is there, and perhaps what was pending, whole."""
        for fill in FILLS:
            for call in range(6, 28):
                session = self.session(call, fill)
                submit(session, Place(0, 1))
                session.commit()
                submit(session, Run(0, 3), Tick(4))
                reply = session.checkpoint()
                self.assertEqual(reply, "ack 3" if call == 27 else "no 25 Device")
                found = recover(MemoryDisk(session.disk.bytes))
                self.assertIn((found.events, found.generation), [(3, 2)] if call == 27 else [(1, 1), (3, 2)])

    def test_calls(self):
        session = self.session(0)
        calls = [session.disk.calls]
        for events, ask in (([Place(0, 1)], session.commit), ([], session.checkpoint), ([Run(0, 2)], session.commit),
                            ([], session.checkpoint)):
            submit(session, *events)
            self.assertTrue(ask().startswith("ack"))
            calls.append(session.disk.calls)
        self.assertEqual(calls, [1, 5, 26, 30, 38])
        self.assertEqual((session.recovered.generation, session.room), (3, 4095))
        session.commit()
        self.assertEqual(session.disk.calls, 38)

    def test_lives(self):
        """Six lives: what each recovers, has acknowledged and has released."""
        rows = [(["place 0 1", "run 0 2", "commit"], 4, b"\xa5", 0, []), ([], 1, b"", None, None),
                (["run 0 4", "commit"], 0, b"", 2, ["out 0 41"]), ([], 0, b"", 3, ["out 0 41"]),
                (["checkpoint"], 0, b"", 3, ["out 0 41"]), ([], 0, b"", 3, [])]
        contents = format_disk(SMALL, PUTS_A)
        for lines, stop, fill, recovered, released in rows:
            disk = StoppingDisk(contents, stop, filled(fill))
            if recovered is None:
                self.assertRaises(DeviceFault, Session, disk)
                continue
            session = Session(disk)
            self.assertEqual(session.events, recovered)
            out = serve(session, "".join(line + "\n" for line in lines).encode())
            self.assertEqual([line for line in out if line.startswith("out")], released)
            contents = disk.bytes
        self.assertEqual(session.released, 1)


class Checkpoints(unittest.TestCase):
    def test_full_batch(self):
        session = Session(MemoryDisk(format_disk(SMALL, PUTS_A)))
        submit(session, *62 * [Input(bytes(64))])
        self.assertEqual(submit(session, Tick(1), Eof()), ["no 22 BatchFull", "no 23 JournalFull"])
        self.assertEqual((session.commit(), session.room), ("ack 62", 0))
        self.assertEqual(submit(session, Tick(1)), ["no 23 JournalFull"])
        self.assertEqual((session.checkpoint(), session.room), ("ack 62", 4095))
        self.assertEqual(submit(session, Tick(1)), ["ok 63 ticked 0"])

    def test_held_output(self):
        """Output that wasn't confirmed is saved, and comes again; what was confirmed later comes again too."""
        disk = format_disk(SMALL, PUTS_A)
        session = Session(MemoryDisk(disk))
        submit(session, Place(0, 1), Run(0, 6))
        self.assertEqual(session.checkpoint(), "ack 2")
        for _ in range(2):
            session = Session(MemoryDisk(disk))
            self.assertEqual((session.confirmed, bytes(session.held), session.released), (0, b"A", 1))
            self.assertEqual(session.take_output(), ["out 0 41"])
            self.assertEqual((session.confirmed, session.released), (1, 1))
        self.assertEqual(session.checkpoint(), "ack 2")
        self.assertEqual((Session(MemoryDisk(disk)).confirmed, Session(MemoryDisk(disk)).take_output()), (1, []))

    def test_uncommitted_output(self):
        session = Session(MemoryDisk(format_disk(SMALL, PUTS_A)))
        submit(session, Place(0, 1), Run(0, 3))
        self.assertEqual((session.take_output(), session.confirmed, session.released), ([], 0, 0))
        self.assertEqual((session.commit(), session.take_output()), ("ack 2", ["out 0 41"]))

    def test_held_before_the_journal(self):
        """The area's held bytes, then the replayed ones, the last 16,384 of them."""
        puts = image("00200893 00150513 00000073 ff9ff06f")
        disk = format_disk(SMALL, puts)
        session = Session(MemoryDisk(disk))
        submit(session, Place(0, 1), Run(0, 3001))
        session.checkpoint()
        submit(session, *5 * [Run(0, 65535)])
        session.commit()
        held = bytes(session.held)
        self.assertEqual(held, bytes(Session(MemoryDisk(disk)).held))
        self.assertEqual(len(held), session.output_length)
        session.take_output()
        submit(session, *16 * [Run(0, 65535)])
        session.commit()
        again = Session(MemoryDisk(disk))
        self.assertEqual(again.output_length, session.output_length)
        self.assertEqual(bytes(again.held), (held + bytes(session.held))[-16384:])
        self.assertEqual(again.confirmed, again.output_length - 16384)

    def test_last_generation(self):
        disk = format_disk(SMALL, PUTS_A)
        struct.pack_into("<Q", disk, AREAS[0] + 8, 2 ** 64 - 2)
        self.assertEqual(replies(disk, "checkpoint", "tick 1", "checkpoint", "commit"),
                         ["ack 0", "ok 1 ticked 0", "no 26 GenerationsUsed", "ack 1"])
        self.assertEqual(recover(MemoryDisk(disk)).generation, 2 ** 64 - 1)

    def test_layout_after(self):
        """Each byte that a checkpoint may write, of a disk that held other bytes there."""
        disk = format_disk(SMALL, PUTS_A)
        disk[AREAS[1] + 1:AREAS[1] + 102400 + 4096] = b"\x5c" * (102400 + 4095)
        disk[JOURNALS[1]:JOURNALS[1] + 50] = b"\xa5" * 50
        before = bytes(disk)
        replies(disk, "place 0 1", "run 0 2", "tick 9", "checkpoint")
        expected = bytearray(before)
        expected[AREAS[1]] = 0xA5
        expected[AREAS[1] + 8:AREAS[1] + 40] = struct.pack("<QQQII", 2, 3, 0, 170, 1)
        tables = bytearray(before[AREAS[0] + 4096:AREAS[0] + 4096 + 170])
        tables[0], tables[16] = 9, 1
        tables[25 + 8:25 + 12] = struct.pack("<I", 0x1008)
        tables[25 + 12 + 36:25 + 12 + 40] = struct.pack("<I", 0x41)
        tables[25 + 12 + 64:25 + 12 + 68] = struct.pack("<I", 2)
        expected[AREAS[1] + 4096:AREAS[1] + 4096 + 170] = tables
        expected[AREAS[1] + 106496:AREAS[1] + 106496 + 24] = PUTS_A
        expected[JOURNALS[1]] = 0
        self.assertEqual(disk, expected)


class ChangedPages(unittest.TestCase):
    """Which calls a checkpoint makes: of the pages only those that its area doesn't hold are written."""

    def setUp(self):
        self.contents = format_disk(SMALL, STORES)

    def session(self):
        return Session(StoppingDisk(self.contents, 0))

    def pages_of(self, session):
        """The pages that a checkpoint writes."""
        written, write, area = [], session.disk.write, 1 - session.recovered.area
        places = {AREAS[area] + 102400 + 4096 * page: page for page in range(1, 16)}

        def noting(at, data):
            if at in places:
                self.assertEqual(len(data), 4096)
                written.append(places[at])
            write(at, data)

        session.disk.write = noting
        self.assertTrue(session.checkpoint().startswith("ack"))
        session.disk.write = write
        return written

    def stored(self, session, commits=True):
        submit(session, Place(0, 1), Run(0, 2))
        if commits:
            session.commit()
        return session

    def test_calls(self):
        for contents, word in ((STORES, 0x2000), (STORES_ZERO, 0)):
            self.contents = format_disk(SMALL, contents)
            session = self.session()
            submit(session, Place(0, 1))
            session.commit()
            session.checkpoint()
            submit(session, Run(0, 2))
            session.commit()
            calls = [session.disk.calls]
            for pages in ([2], [2], []):
                self.assertEqual(self.pages_of(session), pages)
                calls.append(session.disk.calls)
            self.assertEqual(calls, [30, 39, 48, 56])
            found = recover(MemoryDisk(session.disk.bytes))
            self.assertEqual((found.generation, found.machine.memory.load(0x2000, 4)), (5, word))

    def test_replayed_stores(self):
        """A recovered area lacks what the replay stored; the other one is written whole, whatever it holds."""
        self.contents = self.stored(self.session()).disk.bytes
        session = self.session()
        self.assertEqual([self.pages_of(session) for _ in range(4)], [[*range(1, 16)], [2], [], []])
        self.contents = session.disk.bytes
        session = self.session()
        self.assertEqual([self.pages_of(session) for _ in range(3)], [[*range(1, 16)], [], []])

    def test_stored_without_a_commit(self):
        session = self.stored(self.session(), commits=False)
        self.assertEqual([self.pages_of(session) for _ in range(3)], [[*range(1, 16)], [2], []])

    def test_ends_of_pages(self):
        """The last byte of one page and the first of the next; a store that faults marks none."""
        for words, pages in (("000022b7 fe528fa3", [1]), ("000022b7 00528023", [2]), ("000102b7 fe528fa3", [15]),
                             ("000102b7 00528023", []), ("000012b7 fe52ae23", [])):
            self.contents = format_disk(SMALL, image(words))
            session = self.session()
            session.checkpoint()
            self.stored(session)
            self.assertEqual([self.pages_of(session) for _ in range(3)], [pages, pages, []], words)


class Listings(unittest.TestCase):
    def test_input(self):
        disk = format_disk(SMALL, GETS)
        replies(disk, "place 0 1", "run 0 9", "commit", "quit")
        self.assertEqual(listing(disk).splitlines(), [
            "events 2", "clock 0", "status running", "hart 0 idle",
            "thread 1 joinable blocked pc 00001008 enabled deferred none handlers 0", "wait 1 input"])

    def test_join(self):
        disk = format_disk(SMALL, JOINS)
        replies(disk, "place 0 1", "run 0 99", "commit", "quit")
        self.assertEqual(listing(disk).splitlines(), [
            "events 2", "clock 0", "status running", "hart 0 idle",
            "thread 1 joinable blocked pc 00001020 enabled deferred none handlers 0",
            "thread 2 joinable ready pc 00001028 enabled deferred none handlers 0", "wait 1 join 2"])

    def test_crowd(self):
        ready = "joinable ready pc 00001010 enabled deferred none handlers"
        blocked = "joinable blocked pc 00001010 enabled deferred none handlers 0"
        self.assertEqual(lines_of_state(7, crowd(), 2), [
            "events 7", "clock 5", "status running", "hart 0 1", "hart 1 12", f"thread 1 {ready} 2",
            *[f"thread {number} {blocked}" for number in (2, 3, 4)],
            "thread 5 joinable blocked pc 00001010 disabled deferred none handlers 0 unwinding 4294967295",
            *[f"thread {number} {blocked}" for number in range(6, 11)], "thread 11 ended 77",
            "thread 12 detached ready pc 00001010 enabled deferred none handlers 0", "wait 4 cond 00003000 00002000",
            "wait 2 join 3", "wait 3 mutex 00002000 until 9", "wait 5 retake 00002000 unwind", "wait 6 barrier 00004000",
            "wait 7 read 00005000", "wait 8 write 00005000", "wait 9 input", "wait 10 sleep until 6",
            "mutex 00002000 recursive 1 2", "mutex 00002004 errorcheck 0 0", "barrier 00004000 3", "rwlock 00005000 writer 1",
            "rwlock 00005004 readers 2:1 12:3"])
