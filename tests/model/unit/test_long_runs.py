"""Long runs: worked examples, bytes, the way from version 1, and the random cases with them."""
import struct
import unittest
from collections import Counter

from cases.kinds import case_of
from compare import life_of_model
from model.abi import Call
from model.devices import MemoryDisk, StoppingDisk, filled
from model.events import Place, Run, RunLong, Tick, decode_events
from model.layout import format_disk
from model.ledger import transcript
from model.lines import LineFault, parse
from model.machine import Machine
from model.recovery import Unrecovered, recover
from model.session import Session
from model.switches import switched
from unit.test_rows import FILLS, JOURNALS, PUTS_A, SMALL, image, replies, submit

WITHOUT_END = image("0000006f")
PUTS_FOR_EVER = image("00200893 00000073 ffdff06f")
NEEDS = "no 27 NeedsCheckpoint"


class WithLongRuns(unittest.TestCase):
    def setUp(self):
        switch = switched(keys=True, long_runs=True)
        switch.__enter__()
        self.addCleanup(switch.__exit__, None, None, None)


class Events(WithLongRuns):
    def test_bytes(self):
        self.assertEqual(RunLong(0, 1000000).encoding().hex(" "), "06 00 40 42 0f 00")
        for event in (RunLong(0, 1), RunLong(7, 1000000), RunLong(0, 65535)):
            self.assertEqual(decode_events(event.encoding() + b"\4", 2)[0], event)
            self.assertIsNone(decode_events(event.encoding(), 1))
            self.assertIsNone(decode_events(event.encoding()[:-1], 2))
        for wrong in ("06 00 00 00 00 00", "06 00 41 42 0f 00", "06 08 01 00 00 00", "06 00 01 00 00 01"):
            self.assertIsNone(decode_events(bytes.fromhex(wrong), 2))
        self.assertNotEqual(Run(0, 5), RunLong(0, 5))

    def test_switch(self):
        with switched(long_runs=False):
            self.assertIsNone(decode_events(RunLong(0, 1).encoding(), 2))
            self.assertRaisesRegex(LineFault, "Unknown", parse, b"runlong 0 1")

    def test_lines(self):
        self.assertEqual([parse(line) for line in (b"runlong 7 1000000", b"runlong 0 0001")], [RunLong(7, 1000000), RunLong(0, 1)])
        for line, fault in ((b"runlong 0 1000001", "Range"), (b"runlong 0 0", "Range"), (b"runlong 8 x", "Range"), (b"runlong x 0", "Number"),
                            (b"runlong 0", "Unknown"), (b"runlong 0 1 1", "Unknown"), (b"runlong" + b" " * 154 + b"1", "TooLong")):
            with self.assertRaisesRegex(LineFault, fault):
                parse(line)

    def test_does_what_run_does(self):
        """It ends after its steps, where the program ends, where the thread goes off, and with the 1,024th byte."""
        rows = [(WITHOUT_END, "ran 70000 on"), (PUTS_FOR_EVER, "ran 2048 on"), (PUTS_A, "ran 6 end"), (image("00300893 00000073"), "ran 2 off")]
        for words, answer in rows:
            machine = Machine(16, 1, words.ljust(61440, b"\0"))
            machine.step(Place(0, 1))
            self.assertEqual(machine.step(RunLong(0, 70000))[0], answer)
        machine = Machine(16, 1, bytes(61440))
        for event, held, refusal in ((RunLong(1, 1), 0, "NoSuchHart"), (RunLong(0, 1), 99999, "HartIdle")):
            self.assertEqual(machine.refusal_of(event, held).name, refusal)
        machine.step(Place(0, 1))
        self.assertIsNone(machine.refusal_of(RunLong(0, 1), 15360))
        self.assertEqual(machine.refusal_of(RunLong(0, 1), 15361).name, "OutputFull")


class FromVersion1(WithLongRuns):
    def disk(self):
        return format_disk(SMALL, PUTS_A, 1)

    def test_row(self):
        self.assertEqual(replies(self.disk(), "place 0 1", "runlong 0 6", "checkpoint", "runlong 0 6", "commit"),
                         ["ok 1 placed", NEEDS, "ack 1", "ok 2 ran 6 end", "ack 2", "out 0 41"])
        self.assertEqual(replies(self.disk(), "runlong 0 1000001"), ["no 34 Range"])

    def test_row_without_a_disk(self):
        """The other reading of sessions; a checkpoint that fails doesn't change the version."""
        data = b"place 0 1\nrunlong 0 6\ncheckpoint\nrunlong 0 6\ncommit\n"
        self.assertEqual(transcript(self.disk(), data), ["ok 1 placed", NEEDS, "ack 1", "ok 2 ran 6 end", "ack 2", "out 0 41"])
        self.assertEqual(transcript(self.disk(), data, 1)[1:4], [NEEDS, "no 25 Device", "no 21 Failed"])

    def test_journal_of_version_1(self):
        batch = bytes.fromhex("a5 06 00 06 00 01 00 00 00 00")
        for events in (b"", bytes.fromhex("a5 03 00 01 00 01")):
            disk = self.disk()
            disk[JOURNALS[0]:JOURNALS[0] + len(events) + len(batch)] = events + batch
            self.assertRaisesRegex(Unrecovered, "Damaged", recover, MemoryDisk(disk))
            disk = format_disk(SMALL, PUTS_A)
            disk[JOURNALS[0]:JOURNALS[0] + len(events) + len(batch)] = events + batch
            if events:
                self.assertEqual(recover(MemoryDisk(disk)).events, 2)
            else:
                self.assertRaisesRegex(Unrecovered, "Damaged", recover, MemoryDisk(disk))

    def test_order_of_refusals(self):
        """Right behind Failed, before the machine's own; and nothing changes."""
        session = Session(StoppingDisk(self.disk(), 2))
        self.assertEqual(submit(session, RunLong(0, 1), RunLong(5, 1), Run(0, 1)), [NEEDS, NEEDS, "no 5 HartIdle"])
        self.assertEqual((session.events, session.pending), (0, b""))
        self.assertEqual(submit(session, Place(0, 1)) + [session.commit()], ["ok 1 placed", "no 25 Device"])
        self.assertEqual(submit(session, RunLong(0, 1)), ["no 21 Failed"])

    def test_commit_keeps_the_version(self):
        session = Session(MemoryDisk(self.disk()))
        submit(session, Place(0, 1))
        session.commit()
        self.assertEqual((session.recovered.version, submit(session, RunLong(0, 1))), (1, [NEEDS]))
        session.checkpoint()
        self.assertEqual((session.recovered.version, submit(session, RunLong(0, 1))), (2, ["ok 2 ran 1 on"]))
        session.commit()
        found = recover(session.disk)
        self.assertEqual((found.version, found.events, found.machine.has_keys), (2, 2, False))

    def test_stopped(self):
        """The migrating checkpoint, stopped at each of its calls: the old version or the new one, and all events of before."""
        for fill in FILLS:
            for call in range(6, 99):
                session = Session(StoppingDisk(self.disk(), call, filled(fill)))
                submit(session, Place(0, 1))
                session.commit()
                submit(session, Tick(1))
                reply = session.checkpoint()
                found = recover(MemoryDisk(session.disk.bytes))
                again = Session(MemoryDisk(session.disk.bytes))
                if reply.startswith("ack"):
                    self.assertEqual((found.version, found.events), (2, 2))
                    break
                self.assertEqual(session.recovered.version, 1)
                self.assertIn((found.version, found.generation, found.events), [(1, 1, 1), (2, 2, 2)])
                answer = submit(again, RunLong(0, 2))[0]
                self.assertEqual(answer, NEEDS if found.version == 1 else "ok 3 ran 2 on")
            self.assertEqual(call, 27)

    def test_older_area_beside(self):
        """Each area's journal is read by that area's version."""
        disk = self.disk()
        self.assertEqual(replies(disk, "place 0 1", "commit", "checkpoint", "runlong 0 2", "commit")[-1], "ack 2")
        self.assertEqual(struct.unpack_from("<I", disk, 4096 + 36), (1,))
        self.assertEqual((recover(MemoryDisk(disk)).events, recover(MemoryDisk(disk)).version), (2, 2))


class RandomCases(WithLongRuns):
    def test_both_readings_of_sessions(self):
        tally, lines = Counter(), 0
        for kind, seeds in (("threads", range(1, 25)), ("calls", range(1, 5)), ("lines", range(1, 9)), ("checkpoints", range(1, 5))):
            for seed in seeds:
                case = case_of(kind, seed)
                disk = case.disk()
                for data in case.lives:
                    before = bytearray(disk)
                    lines += data.count(b"runlong ")
                    life = life_of_model(disk, data, False, tally)
                    self.assertEqual(transcript(before, data), life.replies.decode().splitlines(), (kind, seed))
        self.assertGreater(lines, 100)
        self.assertGreater(tally["refusal", "NeedsCheckpoint"], 0)
        self.assertGreater(tally[Call.PUTC.name.lower(), "0"], 0)
