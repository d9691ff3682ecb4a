"""Disks that fail a call: the replies are those of a fate, and what is left recovers to what was acknowledged or accepted."""
import unittest
from random import Random

from cases.kinds import Case, guest_case
from cases.life_lists import commands_of, some_lines
from cases.streams import joined
from model.devices import DeviceFault, FailingDisk, MemoryDisk
from model.layout import format_disk
from model.ledger import Fold, ledger_of, transcript
from model.lines import lines_of, reply_lines, serve
from model.promises import whole_state
from model.recovery import recover
from model.session import Session
from unit.test_rows import PUTS_A, SMALL, STORES

LINES = b"place 0 1\nrun 0 2\ncommit\nrun 0 1\ncheckpoint\nrun x\ncommit\ntick 1\ncheckpoint\nrun 0 9\ncommit\nquit\ncommit\n"
CASE = Case(SMALL, PUTS_A, [])


def calls_behind_works(contents, data):
    """How many calls had been made behind each commit or checkpoint with work for the disk, where none fails."""
    disk = MemoryDisk(bytearray(contents))
    session, behind = Session(disk), []
    for line in lines_of(data):
        before = disk.calls
        if reply_lines(session, line) is None:
            break
        if disk.calls > before:
            behind.append(disk.calls)
    return behind


class Failing(unittest.TestCase):
    def test_calls(self):
        """One call fails, a write behind some of its bytes; what comes after it works."""
        for call, kept, left in ((1, 0, b"..bc"), (1, 1, b"a.bc"), (1, 9, b"a.bc"), (2, 5, b"aabc"), (3, 0, b"aa.."), (3, 1, b"aab."),
                                 (4, 1, b"aabc")):
            disk = FailingDisk(bytearray(b"...."), call, kept)
            faults = 0
            for act in (lambda: disk.write(0, b"aa"), disk.sync, lambda: disk.write(2, b"bc"), disk.sync):
                try:
                    act()
                except DeviceFault:
                    faults += 1
            self.assertEqual((bytes(disk.bytes), faults, disk.calls), (left, 1, 4))


class Fates(unittest.TestCase):
    def failed(self, contents, data, call, kept=0):
        """The replies, and what the disk holds then."""
        disk = FailingDisk(bytearray(contents), call, kept)
        return serve(Session(disk), data), disk.bytes

    def require_prefix(self, case, data, left, replies):
        """What a fresh disk holds then is the plain fold of what was acknowledged or of all that was accepted."""
        found, ledger = recover(MemoryDisk(bytearray(left))), ledger_of(format_disk(case.geometry, case.image))
        for command in commands_of(lines_of(data)):
            ledger.replies_to(command)
        counts = [max([0] + [int(reply.split()[1]) for reply in replies if reply.startswith(word)]) for word in ("ack", "ok")]
        self.assertIn(found.events, counts)
        fold = Fold(case.geometry, case.image).over(ledger.accepted[:found.events])
        self.assertTrue(whole_state(found.machine) == whole_state(fold.machine))
        offset = found.output_length - len(found.held)
        self.assertEqual(bytes(found.held), bytes(fold.put[offset:]))
        shown = b"".join(bytes.fromhex(reply.split()[2]) for reply in replies if reply.startswith("out"))
        self.assertEqual(shown, bytes(fold.put[:len(shown)]))
        self.assertLessEqual(offset, len(shown))

    def test_every_call(self):
        """The second checkpoint writes no page of the first image, and one of the other, whose program then faults."""
        self.require_each_call(CASE, [5, 26, 34, 38])
        self.require_each_call(Case(SMALL, STORES, []), [5, 26, 35])

    def require_each_call(self, case, counts):
        contents = format_disk(SMALL, case.image)
        behind = calls_behind_works(contents, LINES)
        self.assertEqual(behind, counts)
        self.assertRaises(DeviceFault, self.failed, contents, LINES, 1)
        for call in range(2, behind[-1] + 3):
            fate = next((number for number, last in enumerate(behind, 1) if call <= last), None)
            for kept in (0, 9):
                with self.subTest(call=call, kept=kept):
                    replies, left = self.failed(contents, LINES, call, kept)
                    self.assertEqual(replies, transcript(contents, LINES, fate))
                    self.assertEqual("no 25 Device" in replies, fate is not None)
                    self.require_prefix(case, LINES, left, replies)

    def test_after_device(self):
        """One Device; then faults of lines come first, and everything else has failed. Nothing more is shown."""
        contents = format_disk(SMALL, PUTS_A)
        lines = b"place 0 1\nrun 0 6\ncommit\ncommit\ntick 0\ntick 1\nauto 0 1\n\ncheckpoint\neof\n"
        self.assertEqual(transcript(contents, lines, 1),
                         ["ok 1 placed", "ok 2 ran 6 end", "no 25 Device", "no 21 Failed", "no 34 Range", "no 21 Failed",
                          "no 21 Failed", "no 21 Failed", "no 21 Failed"])
        self.assertEqual(self.failed(contents, lines, 4)[0], transcript(contents, lines, 1))

    def test_shown_before(self):
        """Output of an earlier life is shown before the first line, and acknowledged once."""
        contents = format_disk(SMALL, PUTS_A)
        serve(Session(MemoryDisk(contents)), b"place 0 1\nrun 0 3\ncheckpoint\n")
        for fate, replies in ((1, ["out 0 41", "ack 2", "no 25 Device"]), (2, ["out 0 41", "ack 2", "ack 2"]),
                              (None, ["out 0 41", "ack 2", "ack 2"])):
            self.assertEqual(transcript(contents, b"commit\ncheckpoint\n", fate), replies)
            self.assertEqual(self.failed(contents, b"commit\ncheckpoint\n", 2 if fate == 1 else 99)[0], replies)

    def test_room(self):
        """Behind a checkpoint the journal has its whole room again: a full batch fits, and no byte more."""
        lines = b"tick 1\ncheckpoint\n" + 62 * (b"in " + 128 * b"0" + b"\n") + b"eof\ncommit\neof\n"
        contents = format_disk(SMALL, PUTS_A)
        replies = transcript(contents, lines)
        self.assertEqual(replies[-3:], ["no 23 JournalFull", "ack 63", "no 23 JournalFull"])
        self.assertEqual(serve(Session(MemoryDisk(contents)), lines), replies)

    def test_no_work(self):
        """A commit with nothing pending makes no call, so it can't fail."""
        contents = format_disk(SMALL, PUTS_A)
        self.assertEqual(transcript(contents, b"commit\ncommit\ntick 1\ncommit\n", 1), ["ack 0", "ack 0", "ok 1 ticked 0", "no 25 Device"])

    def test_failed_auto(self):
        """Its place has failed, so there is no run, and one reply."""
        lines = b"tick 1\ncommit\nauto 0 5\nplace 0 1\n"
        contents = format_disk(SMALL, PUTS_A)
        self.assertEqual(self.failed(contents, lines, 2)[0], ["ok 1 ticked 0", "no 25 Device", "no 21 Failed", "no 21 Failed"])
        self.assertEqual(transcript(contents, lines, 1), ["ok 1 ticked 0", "no 25 Device", "no 21 Failed", "no 21 Failed"])

    def test_random(self):
        for seed in range(20):
            chance = Random(f"fates {seed}")
            case = guest_case(chance, seed)
            contents = format_disk(case.geometry, case.image)
            fed = some_lines(chance, case.lives[0].splitlines())[0] + [b"tick 1", b"commit"]
            data = joined(chance, fed)
            behind = calls_behind_works(contents, data)
            self.assertEqual(serve(Session(MemoryDisk(bytearray(contents))), data), transcript(contents, data))
            for call in {2, chance.randrange(2, max(behind, default=2) + 2)}:
                with self.subTest(seed=seed, call=call):
                    fate = next((number for number, last in enumerate(behind, 1) if call <= last), None)
                    replies, left = self.failed(contents, data, call, chance.choice([0, 2]))
                    self.assertEqual(replies, transcript(contents, data, fate))
                    self.require_prefix(case, data, left, replies)
