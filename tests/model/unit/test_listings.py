"""Listings of earlier events, and with code."""
import unittest

from model.layout import format_disk
from model.lines import serve_disk
from model.listing import OutOfRange, lines_of_code, listing
from model.machine import Machine
from model.recovery import Unrecovered
from unit.test_rows import AREAS, JOINS, JOURNALS, SMALL, image

FIRST = ["  00001000 00001537 lui x10, 1", "  00001004 02850513 addi x10, x10, 40", "  00001008 04200593 addi x11, x0, 66",
         "  0000100c 00a00893 addi x17, x0, 10"]
BLOCKED = ["  00001020 00100893 addi x17, x0, 1", "  00001024 00000073 ecall", "  00001028 00200893 addi x17, x0, 2",
           "  0000102c 00000073 ecall"]
STARTED = ["  00001028 00200893 addi x17, x0, 2", "  0000102c 00000073 ecall", "  00001030 00008067 jalr x0, 0(x1)",
           "  00001034 00000000 illegal"]
WAITING = ["thread 1 joinable blocked pc 00001020 enabled deferred none handlers 0",
           "thread 2 joinable ready pc 00001028 enabled deferred none handlers 0"]


def thread_line(pc):
    return f"thread 1 joinable ready pc {pc} enabled deferred none handlers 0"


class Earlier(unittest.TestCase):
    def setUp(self):
        self.disk = format_disk(SMALL, JOINS)
        serve_disk(self.disk, b"place 0 1\nrun 0 99\ncommit\n")

    def refused(self, at, fault=OutOfRange):
        with self.assertRaises(fault):
            listing(self.disk, at)

    def test_each_count(self):
        clock = ["clock 0", "status running"]
        rows = [["events 0", *clock, "hart 0 idle", thread_line("00001000")], ["events 1", *clock, "hart 0 1", thread_line("00001000")],
                ["events 2", *clock, "hart 0 idle", *WAITING, "wait 1 join 2"]]
        for at, lines in enumerate(rows):
            self.assertEqual(listing(self.disk, at).splitlines(), lines)
        self.assertEqual(listing(self.disk), listing(self.disk, 2))
        self.refused(3)
        self.refused(2 ** 64 - 1)

    def test_from_the_area_on(self):
        serve_disk(self.disk, b"checkpoint\nplace 0 2\ncommit\nrun 0 1\ncommit\n")
        for at in (2, 3, 4):
            self.assertTrue(listing(self.disk, at).startswith(f"events {at}\n"))
        self.assertIn("hart 0 idle\n", listing(self.disk, 2))
        self.assertIn("hart 0 2\n", listing(self.disk, 3))
        self.refused(1)
        self.refused(5)

    def test_within_a_batch(self):
        """Events of one batch are told apart."""
        serve_disk(self.disk, b"tick 1\ntick 2\ntick 3\ncommit\n")
        self.assertEqual([listing(self.disk, at).splitlines()[1] for at in range(2, 6)], ["clock 0", "clock 1", "clock 3", "clock 6"])

    def test_damage_first(self):
        """A disk that doesn't recover shows nothing of its beginning."""
        self.disk[JOURNALS[0] + 10:JOURNALS[0] + 17] = bytes.fromhex("a5 03 00 01 00 01 a5")
        for at in (None, 0, 1, 99):
            self.refused(at, Unrecovered)
        self.disk[0] = 0
        self.refused(0, Unrecovered)

    def test_changes_nothing(self):
        before = bytes(self.disk)
        listing(self.disk, 1, True)
        self.assertEqual(self.disk, before)


class Code(unittest.TestCase):
    def test_threads(self):
        disk = format_disk(SMALL, JOINS)
        self.assertEqual(listing(disk, None, True).splitlines()[4:], [thread_line("00001000"), *FIRST])
        serve_disk(disk, b"place 0 1\nrun 0 99\ncommit\n")
        self.assertEqual(listing(disk, None, True).splitlines()[4:], [WAITING[0], *BLOCKED, WAITING[1], *STARTED, "wait 1 join 2"])
        self.assertEqual(listing(disk, 1, True).splitlines()[4:], [thread_line("00001000"), *FIRST])
        self.assertEqual([line for line in listing(disk, None, True).splitlines() if line[0] != " "], listing(disk).splitlines())

    def test_stored_words(self):
        """What the guest has written there, not what it was loaded with."""
        stores = image("000012b7 00500313 0262a023 ffdff06f")
        disk = format_disk(SMALL, stores.ljust(61440, b"\0"))
        serve_disk(disk, b"place 0 1\nrun 0 3\ncommit\n")
        self.assertIn("  0000100c ffdff06f jal x0, -4\n  00001010 00000000 illegal\n", listing(disk, None, True))
        serve_disk(disk, b"checkpoint\n")
        disk[AREAS[1] + 102400 + 4096 + 0x10:AREAS[1] + 102400 + 4096 + 0x14] = bytes.fromhex("73001000")
        self.assertIn("  00001010 00100073 ebreak\n", listing(disk, None, True))

    def test_ended(self):
        """An ended thread has no place."""
        disk = format_disk(SMALL, JOINS)
        serve_disk(disk, b"place 0 1\nrun 0 5\nplace 0 2\nrun 0 9\ncommit\n")
        self.assertIn("thread 2 ended", listing(disk, None, True))
        self.assertTrue(listing(disk, None, True).splitlines()[-1].startswith("thread 2 ended"))

    def test_ends_of_memory(self):
        machine = Machine(16, 1, bytes(61440))
        for pc, places in ((0xFFF4, "0000fff4 0000fff8 0000fffc"), (0xFFFC, "0000fffc"), (0x10000, ""), (0xFFFFFFF0, ""),
                           (0xFFFFFFFC, ""), (0x0FF8, "00001000 00001004"), (0, "")):
            machine.threads[1].pc = pc
            self.assertEqual([line.split()[0] for line in lines_of_code(machine, 1)], places.split())
