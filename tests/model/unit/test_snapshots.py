"""Snapshots by hand: what leads to one, whose it is, and with what a look begins."""
import unittest
from collections import Counter
from hashlib import sha256
from pathlib import Path
from tempfile import TemporaryDirectory
from types import SimpleNamespace

from cases.kinds import case_of
from cases.snapshots import RIGHT, Snapshots, SnapshotsCase
from model.beside import part_of, read_history
from model.events import Tick
from model.snapshots import KeptRecording, begun_at, bytes_of_snapshot, lengths_of, note_of, saved_by
from unit.stand_in_histories import bytes_of_part
from unit.test_beside import MORE, SIZE, Beside, history_of

TICKS = Tick(3).encoding() + Tick(4).encoding()


class WithHistory(Beside):
    """A history whose long journal has two batches, of two events each."""

    def setUp(self):
        super().setUp()
        self.contents = history_of(self.disk, MORE, TICKS)
        self.kept, _ = read_history(self.contents)
        self.begin = self.kept.last - 4

    def snapshot(self, number, length):
        """A right one, where so many bytes lead there."""
        return bytes_of_snapshot(part_of(self.kept, number, number), note_of(self.contents[:length]))


class Bytes(WithHistory):
    def test_lengths(self):
        """Those before the gate behind each batch: length and events come behind the one before."""
        ends = SIZE, SIZE + 3 + len(MORE), SIZE + 6 + len(MORE) + len(TICKS)
        self.assertEqual(lengths_of(self.contents), dict(zip((self.begin, self.begin + 2, self.begin + 4), ends)))
        self.assertEqual([self.contents[at] for at in ends], [0xA5, 0xA5, 0])
        self.assertEqual(ends[-1] + 1, len(self.contents))
        self.assertEqual(lengths_of(history_of(self.disk)), {self.begin: SIZE})

    def test_note(self):
        self.assertEqual(note_of(b"abc"), bytes([3, 0, 0, 0, 0, 0, 0, 0]) + bytes.fromhex("ba7816bf8f01cfea414140de5dae2223b00361a396177a9cb410ff61f20015ad"))

    def test_form(self):
        """That of a part without an event, and the note."""
        data, part = self.snapshot(self.begin + 2, SIZE + 3 + len(MORE)), bytes_of_part(part_of(self.kept, self.begin + 2, self.begin + 2))
        self.assertEqual((data[:72], data[112:]), (part[:72], part[112:]))
        self.assertEqual(data[72:80], (SIZE + 3 + len(MORE)).to_bytes(8, "little"))
        self.assertEqual(data[80:112], sha256(self.contents[:SIZE + 3 + len(MORE)]).digest())
        self.assertEqual((part[72:112], len(data)), (bytes(40), SIZE + 1))
        kept, length = read_history(data)
        self.assertEqual((kept.first, kept.events, length), (self.begin + 2, [], SIZE + 1))


class Own(WithHistory):
    def setUp(self):
        super().setUp()
        self.length = lengths_of(self.contents)[self.begin + 2]
        self.right = self.snapshot(self.begin + 2, self.length)

    def is_taken(self, snapshot, contents=None):
        return saved_by(snapshot, contents or self.contents) is not None

    def test_right(self):
        """Also of a history that has gone on, and of one that ends there."""
        self.assertTrue(self.is_taken(self.right))
        self.assertTrue(self.is_taken(self.right, self.contents[:-1] + b"\xa5" + b"\1\0\4\0"))
        self.assertTrue(self.is_taken(self.right, self.contents[:self.length] + b"\0"))
        self.assertTrue(saved_by(self.right, self.contents).is_same(part_of(self.kept, self.begin + 2, self.begin + 2)))

    def test_wrong(self):
        for at in (72, 79, 80, 111):
            self.assertFalse(self.is_taken(self.put(at, [self.right[at] ^ 1], self.right)), at)
        self.assertFalse(self.is_taken(self.put(72, bytes(40), self.right)))
        self.assertFalse(self.is_taken(self.put(72, (1 << 63).to_bytes(8, "little"), self.right)))
        self.assertFalse(self.is_taken(self.put(72, (len(self.contents) + 1).to_bytes(8, "little") + note_of(self.contents)[8:], self.right)))
        self.assertFalse(self.is_taken(self.put(72, note_of(b""), self.right)))
        self.assertFalse(self.is_taken(self.put(72, note_of(self.contents[:4_095]), self.right)))

    def test_unread(self):
        for data in (b"", b"some words", self.right[:112], self.right[:SIZE], b"\0" + self.right[1:], bytes(len(self.right))):
            self.assertFalse(self.is_taken(data), data[:20])

    def test_of_others(self):
        """A history that has another byte before it, or that is shorter than what leads there."""
        self.assertFalse(self.is_taken(self.right, self.put(self.length - 1, [self.contents[self.length - 1] ^ 1], self.contents)))
        self.assertFalse(self.is_taken(self.right, self.put(4_000, [1], self.contents)))
        self.assertFalse(self.is_taken(self.right, history_of(self.disk, TICKS, MORE)))
        self.assertFalse(self.is_taken(self.right, self.contents[:self.length - 1]))


class Begins(WithHistory):
    def begins(self, at, snapshots):
        seen = begun_at(self.kept, self.contents, snapshots, at)
        self.assertTrue(seen.is_same(part_of(self.kept, seen.first)))
        return seen.first

    def test_nearest(self):
        first, begin = self.kept.first, self.begin
        self.assertLess(first, begin)
        lengths = lengths_of(self.contents)
        right = {number: self.snapshot(number, lengths[number]) for number in lengths}
        self.assertEqual([self.begins(at, right) for at in (first, begin - 1, begin, begin + 1, begin + 2, begin + 3, begin + 4)],
                         [first, first, begin, begin, begin + 2, begin + 2, begin + 4])
        self.assertEqual(self.begins(begin, {}), first)
        wrong = {**right, begin + 2: b"some words"}
        self.assertEqual([self.begins(at, wrong) for at in (begin + 1, begin + 2, begin + 3, begin + 4)], [begin, first, first, begin + 4])

    def test_begun_later(self):
        """A history that doesn't begin with the first event."""
        part = part_of(self.kept, self.begin)
        self.contents = bytes_of_part(part)
        right = bytes_of_snapshot(part_of(part, self.begin, self.begin), note_of(self.contents[:SIZE]))
        self.assertIsNot(begun_at(part, self.contents, {self.begin: right}, self.begin), part)
        self.assertTrue(begun_at(part, self.contents, {self.begin: right}, self.begin).is_same(part))

    def test_recorded(self):
        """The events from there on, and the state there."""
        part = part_of(self.kept, self.begin + 2)
        recording = KeptRecording(part)
        self.assertEqual((recording.first, recording.whole, recording.events), (self.begin + 2, self.begin + 4, [Tick(3), Tick(4)]))
        self.assertEqual(recording.machine.clock, part.machine.clock)
        self.assertEqual((recording.checkpoint, recording.is_misled), (self.begin + 2, False))


class Cases(WithHistory):
    def test_drawn(self):
        """Right ones and each kind of wrong ones, of which none is taken."""
        cases, tally = [case_of("snapshots", seed) for seed in range(1, 21)], Counter()
        self.assertEqual({type(case) for case in cases}, {SnapshotsCase})
        with TemporaryDirectory() as folder:
            path = Path(folder) / "history"
            path.write_bytes(self.contents)
            for seed in range(40):
                before = tally["snapshot", RIGHT]
                drawn = Snapshots("ckrt", SimpleNamespace(case=SimpleNamespace(seed=seed), kept=self.kept, path=path), tally)
                drawn.draw()
                self.assertEqual(len(drawn.taken()), tally["snapshot", RIGHT] - before)
        self.assertTrue(all(count > 2 for count in tally.values()) and len(tally) == 7, tally)


if __name__ == "__main__":
    unittest.main()
