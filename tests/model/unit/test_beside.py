"""Histories beside disks, by hand: what the bytes of one have recorded, each fault, what it lacks of a disk, and which files are free."""
import unittest
from collections import Counter
from random import Random

from cases.beside import FREE, NOT_FREE, Changed, expected_part, with_what_is_open
from cases.damage import batch
from cases.glances import Glance
from cases.kinds import case_of
from model.beside import FIELDS, Joined, KeptHistory, Unkept, begun_from, has_form_of_part, is_free, lacking, listing_of_kept, part_of, read_history, recorded_by
from model.events import Input, Place, Run, RunLong, Tick
from model.layout import Geometry, format_disk
from model.lines import serve_disk
from model.listing import OutOfRange, listing
from model.recovery import Unrecovered
from model.switches import switched
from unit.stand_in_histories import brought_up, bytes_of_part
from unit.test_call_lines import LED, LED_LINES
from unit.test_rows import GETS, PUTS_A, SMALL

SIZE = SMALL.size  # 348,160 bytes
MORE = Tick(5).encoding() + Input(b"zz").encoding()


def disk_of(*lines, words=GETS, geometry=SMALL, version=None):
    disk = format_disk(geometry, words, version)
    serve_disk(disk, "\n".join([*lines, ""]).encode())
    return bytes(disk)


def history_of(disk, *batches):
    """The front's bytes by hand."""
    front = b"\xa5" + bytes(7) + b"CKRTHIST" + bytes([1, 0, 0, 0]) + disk[20:72] + bytes(4096 - 72)
    return front + disk[4096:SIZE] + b"".join(batch(events, b"") for events in batches) + b"\0"


class Beside(unittest.TestCase):
    def setUp(self):
        switch = switched(keys=True, long_runs=True, programs=True, schedules=True)
        switch.__enter__()
        self.addCleanup(switch.__exit__, None, None, None)
        self.disk = disk_of(*LED)
        self.whole = history_of(self.disk, MORE)

    def spans(self, contents, first, last, length):
        kept, taken = read_history(contents)
        self.assertEqual((kept.first, kept.last, taken), (first, last, length))
        return kept

    def refuses(self, fault, contents):
        with self.assertRaisesRegex(Unrecovered, f"^{fault}$"):
            read_history(bytes(contents))

    def put(self, at, data, contents=None):
        contents = contents or self.whole
        return contents[:at] + bytes(data) + contents[at + len(data):]


class Readings(Beside):
    def test_begun(self):
        """Just what the disk has recorded: from the older area on, or from the newer one."""
        kept = self.spans(history_of(self.disk), 0, 3, SIZE + 1)
        self.assertTrue(kept.is_same(recorded_by(bytearray(self.disk))))
        self.assertEqual((kept.events, KeptHistory(kept).lines()), ([Place(0, 1), Run(0, 9), Input(b"A")], LED_LINES))
        self.spans(history_of(disk_of(*LED[:2], *LED[3:])), 2, 3, SIZE + 1)
        self.spans(history_of(disk_of()), 0, 0, SIZE + 1)

    def test_long_journal(self):
        kept = self.spans(self.whole, 0, 5, SIZE + 3 + len(MORE) + 1)
        self.assertEqual(kept.events[3:], [Tick(5), Input(b"zz")])
        self.assertEqual(KeptHistory(kept).lines(), [*LED_LINES, "3+0 tick 5", "4+0 input 7a7a"])
        self.assertEqual(KeptHistory(kept).lines(3, 4), ["3+0 tick 5"])
        self.assertTrue(self.spans(history_of(self.disk, MORE[:5], MORE[5:]), 0, 5, SIZE + 3 + 3 + len(MORE) + 1).is_same(kept))
        for stretch in ((6, None), (None, 6), (4, 3)):
            with self.assertRaises(OutOfRange):
                KeptHistory(kept).lines(*stretch)

    def test_later(self):
        """A history that begins behind some events hasn't these."""
        kept = read_history(history_of(disk_of(*LED, "checkpoint", "tick 1", "commit"), MORE))[0]
        self.assertEqual((kept.first, kept.last), (2, 6))
        self.assertEqual(KeptHistory(kept).lines(3), ["3+0 tick 1", "4+0 tick 5", "5+0 input 7a7a"])
        self.assertEqual(KeptHistory(kept).lines(), KeptHistory(kept).lines(2))
        with self.assertRaises(OutOfRange):
            KeptHistory(kept).lines(1)

    def test_versions(self):
        """The long journal has long runs, also of a disk of version 1, of which nobody notes the program."""
        disk = disk_of("place 0 1", "commit", version=1)
        kept = self.spans(history_of(disk, RunLong(0, 2).encoding()), 0, 2, SIZE + 3 + 6 + 1)
        self.assertEqual((kept.fields, kept.events[1:]), (disk[20:72], [RunLong(0, 2)]))

    def test_unread_bytes(self):
        """What stands behind the last gate, between the fields and behind the fields of a header isn't read."""
        kept, length = read_history(self.whole)
        for at, data in ((1, b"\xa5" * 7), (72, b"\xa5" * 4024), (4096 + 1, b"\xa5"), (4096 + 40, bytes([7] * 4056))):
            self.assertTrue(read_history(self.put(at, data))[0].is_same(kept))
        for more in (b"\xa5", b"\xa5\1\0\4\0", bytes(9000)):
            self.assertEqual(read_history(self.whole + more)[1], length)
        self.spans(self.put(length - 1, b"\1"), 0, 5, length)

    def test_older_area(self):
        """Where its events don't lead to the area in use it begins there, and goes on to the same end."""
        kept = self.spans(self.put(SMALL.page_at(0, 1) + 900, b"\1"), 2, 5, len(self.whole))
        self.assertEqual(kept.events, [Input(b"A"), Tick(5), Input(b"zz")])
        self.spans(self.put(SMALL.area_at(0), b"\0"), 2, 5, len(self.whole))
        self.spans(self.put(SMALL.journal_at(0) + 1, b"\0"), 2, 5, len(self.whole))

    def test_not_a_history(self):
        for contents in (b"", self.whole[:31], self.put(0, b"\0"), self.put(0, b"\xa4"), self.put(8, b"c"), self.put(15, b"X"), self.disk):
            self.refuses("NotAHistory", contents)

    def test_version(self):
        """Before the sizes; and that of the area in use."""
        for version in (0, 2, 3, 256):
            self.refuses("Version", self.put(16, version.to_bytes(4, "little") + bytes(4)))
        self.refuses("Version", self.put(SMALL.area_at(1) + 36, b"\3"))
        self.refuses("Version", self.put(SMALL.area_at(1) + 36, b"\3", self.put(SIZE + 1, b"\0")))

    def test_sizes(self):
        for at, byte in ((20, 15), (24, 0), (24, 9), (28, 1), (29, 0), (22, 2)):
            self.refuses("Damaged", self.put(at, bytes([byte])))
        for length in (32, 71, 72, 4096, SIZE - 1, SIZE):
            self.refuses("Damaged", self.whole[:length])
        self.spans(history_of(self.disk)[:SIZE + 1], 0, 3, SIZE + 1)

    def test_areas(self):
        for at, data in ((SMALL.area_at(1) + 8, [1]), (SMALL.area_at(1) + 32, [0]), (SMALL.tables_at(1) + 9, [7]),
                         (SMALL.journal_at(1) + 1, [0]), (SMALL.journal_at(1) + 3, [7])):
            self.refuses("Damaged", self.put(at, data))
        for at in (SMALL.area_at(1), SMALL.area_at(1) + 8):
            self.refuses("Damaged", self.put(SMALL.area_at(0), [0], self.put(at, [0])))
            self.spans(self.put(at, [0]), 0, 4, len(self.whole))

    def test_chains(self):
        """The long journal ends with the file: a batch has its gate there."""
        for at, data in ((SIZE + 1, [0, 0]), (SIZE + 1, [0, 17]), (SIZE + 3, [0]), (SIZE + 3, [7]), (len(self.whole) - 1, [0xA5])):
            self.refuses("Damaged", self.put(at, data))
        for length in range(SIZE + 1, len(self.whole)):
            self.refuses("Damaged", self.whole[:length])
        self.refuses("Damaged", self.whole[:-1] + b"\xa5\1\0\4")
        self.spans(self.whole[:-1] + b"\xa5\1\0\4\0", 0, 6, len(self.whole) + 4)

    def test_refused(self):
        """An event that isn't accepted at its turn is seen by whoever makes it."""
        kept = self.spans(history_of(self.disk, MORE, Place(7, 1).encoding() + Tick(1).encoding()), 0, 7, SIZE + 3 + len(MORE) + 3 + 8 + 1)
        history = KeptHistory(kept)
        self.assertEqual((history.refused, history.lines(3, 5), history.lines(5, 5)), (5, ["3+0 tick 5", "4+0 input 7a7a"], []))
        for stretch in ((None, None), (6, None), (None, 6), (6, 6)):
            with self.assertRaisesRegex(Unrecovered, "Damaged"):
                history.lines(*stretch)
        self.assertEqual(history.lines_before_refused(4), ["4+0 input 7a7a"])
        later = KeptHistory(read_history(history_of(disk_of(*LED, "checkpoint", "tick 1", "commit"), MORE, Place(7, 1).encoding()))[0])
        self.assertEqual((later.refused, later.lines(4, 6)), (6, ["4+0 tick 5", "5+0 input 7a7a"]))
        self.assertEqual(later.lines_before_refused(5), ["5+0 input 7a7a"])
        self.assertIsNone(KeptHistory(read_history(self.whole)[0]).refused)

    def test_what_is_open(self):
        """Whole lines before the fault may come; a stretch that it hasn't may be told by either fault."""
        history = KeptHistory(read_history(history_of(self.disk, MORE, Place(7, 1).encoding()))[0])
        damaged, outside = (Glance(1, "", f"ckrt: {name}") for name in ("Damaged", "Range"))
        some = Glance(1, "3+0 tick 5\n", "ckrt: Damaged")
        for expected, shown, first, wanted in ((damaged, some, 3, some), (damaged, damaged, 3, damaged), (damaged, some, 4, damaged), (damaged, Glance(1, "3+0 tick 5", damaged.fault), 3, damaged),
                                               (outside, damaged, None, damaged), (outside, outside, None, outside), (outside, some, None, outside),
                                               (Glance(0, "x\n"), some, 3, Glance(0, "x\n"))):
            self.assertEqual(with_what_is_open(expected, shown, history, first), wanted)


class BringingUp(Beside):
    def lacks(self, kept, *lines, **how):
        return lacking(read_history(kept)[0], recorded_by(bytearray(disk_of(*lines, **how))))

    def refuses_disk(self, fault, kept, *lines, **how):
        with self.assertRaisesRegex(Unkept, f"^{fault}$"):
            self.lacks(kept, *lines, **how)

    def test_lacking(self):
        kept = history_of(self.disk)
        self.assertEqual(self.lacks(kept, *LED), [])
        self.assertEqual(self.lacks(kept, *LED, "tick 5", "in 7a7a", "commit"), [Tick(5), Input(b"zz")])
        self.assertEqual(self.lacks(self.whole, *LED, "tick 5", "in 7a7a", "tick 2", "commit"), [Tick(2)])

    def test_over_a_checkpoint(self):
        """The disk has the events from the last checkpoint but one on: just behind the history's last one is enough."""
        kept, gone = history_of(disk_of(*LED[:3])), ["checkpoint", "tick 1", "commit", "checkpoint", "tick 2", "commit"]
        self.assertEqual(self.lacks(kept, *LED[:3], *gone), [Tick(1), Tick(2)])
        self.assertEqual(self.lacks(history_of(disk_of()), *LED[:3], "checkpoint", "tick 1", "commit"), [Place(0, 1), Run(0, 9), Tick(1)])
        self.refuses_disk("HistoryBehind", history_of(disk_of()), *LED[:3], *gone)
        self.refuses_disk("HistoryBehind", history_of(disk_of("place 0 1", "commit")), *LED[:3], *gone)

    def test_other_runs(self):
        kept = history_of(self.disk)
        for lines in ([*LED[:4], "in 42", "commit"], [*LED[:3]], [], [*LED[:4], "tick 1", "tick 1", "commit"], ["place 0 1", "run 0 8", *LED[2:]]):
            self.refuses_disk("HistoryDiffers", kept, *lines)
        self.refuses_disk("HistoryDiffers", self.whole, *LED, "tick 5", "in 7a7b", "commit")
        self.refuses_disk("HistoryDiffers", self.whole, *LED, "tick 5", "commit")

    def test_other_programs(self):
        """Of another image or of other sizes, whatever it has recorded."""
        nothing = history_of(disk_of())
        self.assertEqual(self.lacks(nothing), [])
        for how in ({"words": PUTS_A}, {"words": GETS + bytes(1)}, {"geometry": Geometry(17, 1, 4096)}, {"geometry": Geometry(16, 2, 4096)}, {"geometry": Geometry(16, 1, 8192)}):
            self.refuses_disk("HistoryDiffers", nothing, **how)

    def test_without_events(self):
        """A history that has none stands behind some, too: a disk with fewer of them is an older one."""
        kept = read_history(history_of(disk_of(*LED, "checkpoint", "checkpoint")))[0]
        self.assertEqual((kept.first, kept.last), (3, 3))
        self.assertEqual(lacking(kept, recorded_by(bytearray(disk_of(*LED, "tick 1", "commit")))), [Tick(1)])
        with self.assertRaisesRegex(Unkept, "HistoryDiffers"):
            lacking(kept, recorded_by(bytearray(disk_of(*LED[:3]))))

    def test_later_begin(self):
        """Of events that one of both alone has none is compared: the history may begin later than the disk, or earlier."""
        later = history_of(disk_of(*LED, "checkpoint", "tick 1", "commit"))
        self.assertEqual(read_history(later)[0].first, 2)
        kept, recorded = read_history(later)[0], recorded_by(bytearray(self.disk))
        self.assertEqual(lacking(kept, recorded.with_more([Tick(1), Tick(8)])), [Tick(8)])
        for more in ([Tick(2)], []):
            with self.assertRaisesRegex(Unkept, "HistoryDiffers"):
                lacking(kept, recorded.with_more(more))
        with self.assertRaisesRegex(Unkept, "HistoryDiffers"):
            lacking(kept, recorded_by(bytearray(disk_of("place 0 1", "commit"))))

    def test_free(self):
        for contents in (b"", bytes(1), bytes(71), bytes(72), *FREE, self.put(0, b"\0"), self.put(0, b"\xa4"), self.put(0, b"\0", self.put(20, bytes(52)))):
            self.assertTrue(is_free(contents), contents[:20])
        for contents in (bytes(73), bytes(71) + b"\1", *NOT_FREE, self.whole, self.disk, self.put(0, b"\0", self.disk), self.put(0, b"\0", self.put(8, b"c")), self.put(0, b"\0", self.put(16, b"\2"))):
            self.assertFalse(is_free(contents), contents[:20])

    def test_fields(self):
        """Those of the front are a superblock's."""
        self.assertEqual(read_history(self.whole)[0].fields, self.disk[FIELDS])
        self.assertEqual(self.whole[:20].hex(" ", 4), "a5000000 00000000 434b5254 48495354 01000000")

    def test_brought_up(self):
        """The stand-in's own bytes: of many events there are several batches, and what was there stays."""
        self.assertEqual(begun_from(self.disk), history_of(self.disk))
        ticks = [f"tick {number}" for number in range(1, 1501)]
        disk = disk_of(*LED, *ticks[:600], "commit", "checkpoint", *ticks[600:1200], "commit", geometry=SMALL)
        data, line = brought_up(history_of(self.disk), disk, lacking, is_free)
        self.assertEqual((line, data[:SIZE] == history_of(self.disk)[:SIZE]), ("appended 1200", True))
        self.assertEqual((data[SIZE:SIZE + 3], data[SIZE + 4098:SIZE + 4101]), (b"\xa5\xff\x0f", b"\xa5\x71\x07"))
        self.spans(data, 0, 1203, SIZE + 2 * 3 + 6000 + 1)


class Parts(Beside):
    """Of a history with the events of LED, then a tick and an input."""

    def setUp(self):
        super().setUp()
        self.kept = read_history(self.whole)[0]

    def test_states(self):
        """The state is the one that a disk with just these events recovers to, and the events are those behind it."""
        for first, lines in ((0, []), (1, LED[:1]), (2, LED[:2])):
            part = part_of(self.kept, first)
            self.assertEqual((part.first, part.last, part.events), (first, 5, self.kept.events[first:]))
            self.assertTrue(part.is_same(Joined(self.kept.fields, first, recorded_by(bytearray(disk_of(*lines, "commit", "checkpoint", "checkpoint"))).machine, part.events)))
        self.assertEqual(self.kept.first, 0)
        self.assertEqual(KeptHistory(part_of(self.kept, 3)).lines(), ["3+0 tick 5", "4+0 input 7a7a"])

    def test_ends(self):
        part = part_of(self.kept, 3, 4)
        self.assertEqual((part.first, part.last, part.events), (3, 4, [Tick(5)]))
        self.assertEqual(part_of(self.kept, 5).events, [])
        self.assertTrue(part_of(part_of(self.kept, 1, 4), 2, 3).is_same(part_of(self.kept, 2, 3)))
        for stretch in ((6,), (0, 6), (4, 3), (2 ** 64 - 1, None)):
            with self.assertRaises(OutOfRange):
                part_of(self.kept, *stretch)
        for stretch in ((2,), (3, 5), (5, 5)):
            with self.assertRaises(OutOfRange):
                part_of(part_of(self.kept, 3, 4), *stretch)

    def test_refused(self):
        """Events before it are made, and its own aren't. No part begins behind one that isn't accepted."""
        kept = read_history(history_of(self.disk, MORE, Place(7, 1).encoding() + Tick(1).encoding()))[0]
        self.assertEqual((part_of(kept, 5).events, part_of(kept, 0, 7).last), ([Place(7, 1), Tick(1)], 7))
        for first in (6, 7):
            with self.assertRaisesRegex(Unrecovered, "^Damaged$"):
                part_of(kept, first)
        self.assertEqual(expected_part(kept, b"", (8, None)), (None, ["Range", "Damaged"]))

    def test_faults(self):
        """Words that don't go together come first; of several others each may be told."""
        self.assertEqual(expected_part(self.kept, b"words", (None, 3)), (None, ["Range"]))
        self.assertEqual(expected_part("Damaged", b"words", (3, 2)), (None, ["Range"]))
        self.assertEqual(expected_part("Damaged", b"words", (2, 3)), (None, ["NotAHistory", "Damaged"]))
        self.assertEqual(expected_part(self.kept, b"words", (2, 9)), (None, ["NotAHistory", "Range"]))
        self.assertEqual(expected_part(self.kept, b"words", (2, 3))[1], ["NotAHistory"])
        self.assertEqual(expected_part(self.kept, bytes(72), (2, 3))[1], [])

    def test_bytes(self):
        """Those of the stand-in are read as the part."""
        for stretch in ((0, 5), (2, 4), (5, 5)):
            data = bytes_of_part(part_of(self.kept, *stretch))
            kept = self.spans(data, *stretch, SIZE + 1 + (3 + sum(len(event.encoding()) for event in self.kept.events[slice(*stretch)])) * (stretch != (5, 5)))
            self.assertTrue(kept.is_same(part_of(self.kept, *stretch)) and has_form_of_part(data))
            for at, byte in ((SMALL.area_at(1), 0xA5), (SMALL.area_at(0), 0), (SMALL.area_at(0) + 8, 2), (SMALL.journal_at(0), 0xA5)):
                self.assertFalse(has_form_of_part(self.put(at, [byte], data)))

    def test_listings(self):
        """That of the disk with as many events, without what it notes."""
        part = part_of(self.kept, 2)
        for kept, at, lines in ((self.kept, 2, LED[:2]), (self.kept, None, [*LED, "tick 5", "in 7a7a"]), (part, 2, LED[:2]), (part, None, [*LED, "tick 5", "in 7a7a"])):
            for is_with_code in (False, True):
                wanted = listing(bytearray(disk_of(*lines, "commit")), None, is_with_code).splitlines()
                self.assertEqual(listing_of_kept(kept, at, is_with_code), [line for line in wanted if not line.startswith(("program", "schedule"))])
        for at in (1, 6):
            with self.assertRaises(OutOfRange):
                listing_of_kept(part, at)

    def test_free(self):
        """A history that wasn't begun whole has all of the first 72 bytes."""
        for length in (20, 32, 71):
            self.assertFalse(is_free(self.put(0, b"\0")[:length]))
        self.assertTrue(is_free(self.put(0, b"\0")[:72]))


class Cases(Beside):
    def test_drawn(self):
        """Disks of each kind are asked for, and files of each kind lie there first; of the changes some leave a history."""
        cases = [case_of("beside", seed) for seed in range(1, 61)]
        asked = Counter(ask.which for case in cases for ask in case.asks)
        self.assertTrue(all(asked[which] >= 5 for which in ("own", "none", "older", "apart", "other")), asked)
        self.assertEqual({None if case.before is None else is_free(case.before) for case in cases}, {None, False, True})
        self.assertTrue(all(len(case.asks) == len(case.steps) for case in cases))

    def test_changes(self):
        outcomes = Counter()
        for seed in range(200):
            try:
                kept, _ = read_history(Changed(Random(seed), self.whole, len(self.whole)).change())
                outcomes["refused later" if KeptHistory(kept).refused else f"read to {kept.last}"] += 1
            except Unrecovered as fault:
                outcomes[str(fault)] += 1
        self.assertTrue(all(outcomes[name] > 3 for name in ("read to 5", "read to 6", "refused later", "Damaged", "NotAHistory")), outcomes)
