"""Disks that note their program, by hand: the bytes, what else is no fault, the listing, and what `format` and a drive refuse."""
import unittest

from cases.formats import SMALLEST, FormatCase
from model.devices import MemoryDisk
from model.layout import NOTE_END, differs, format_disk, note_of
from model.lines import serve_disk
from model.listing import listing
from model.recovery import Unrecovered, recover
from model.switches import switched

PUTS = bytes.fromhex("13051004 93082000 73000000 13050000 93081000 73000000")  # 41, and exit
DIGEST = "0e6376304a4316bffed9623510f220e728ef4485ff15af18d591aff9d191d3e4"  # by sha256sum
WRITTEN = "03 00 00 00 10 00 00 00 01 00 00 00 00 10 00 00 " + bytes.fromhex(DIGEST).hex(" ") + " 18 00 00 00 00 00 00 00"
LINE = f"program {DIGEST} 24"
EMPTY = "e3b0c44298fc1c149afbf4c8996fb92427ae41e4649b934ca495991b7852b855"


class Noted(unittest.TestCase):
    def setUp(self):
        switch = switched(keys=True, long_runs=True, programs=True)
        switch.__enter__()
        self.addCleanup(switch.__exit__, None, None, None)
        self.disk = format_disk(SMALLEST, PUTS)

    def last_line(self, at=None):
        return listing(self.disk, at).splitlines()[-1]

    def test_bytes(self):
        """Those of the page's dump; behind them nothing is written."""
        self.assertEqual(self.disk[:16].hex(" "), "a5 00 00 00 00 00 00 00 43 4b 52 54 44 49 53 4b")
        self.assertEqual(self.disk[16:72].hex(" "), WRITTEN)
        self.assertFalse(any(self.disk[72:4096]))
        self.assertEqual(format_disk(SMALLEST, b"")[32:72], bytes.fromhex(EMPTY) + bytes(8))

    def test_not_the_memory(self):
        """An image with a zero more has the same memory, and another note."""
        longer = format_disk(SMALLEST, PUTS + b"\0")
        self.assertEqual(longer[4096:], self.disk[4096:])
        self.assertNotEqual(longer[32:64], self.disk[32:64])
        self.assertEqual(longer[64:72], (25).to_bytes(8, "little"))

    def test_listing(self):
        """It is the last line, of earlier states too, and stays through events and checkpoints."""
        self.assertEqual(self.last_line(), LINE)
        replies = serve_disk(self.disk, b"place 0 1\nrun 0 2\ncommit\n")
        self.assertEqual(replies[-1], "ack 2")
        self.assertEqual((self.last_line(), self.last_line(0), self.last_line(1)), (LINE, LINE, LINE))
        serve_disk(self.disk, b"checkpoint\n")
        self.assertEqual(self.last_line(), LINE)
        self.assertEqual(listing(self.disk).count("program"), 1)

    def test_no_fault(self):
        """Whatever those 40 bytes are, they are told, and nothing else of the listing changes."""
        before = listing(self.disk).splitlines()[:-1]
        self.disk[32:72] = bytes(range(200, 240))
        self.assertEqual(listing(self.disk).splitlines(), [*before, f"program {bytes(range(200, 232)).hex()} {int.from_bytes(range(232, 240), 'little')}"])

    def test_versions(self):
        """Of a superblock of version 1 the same bytes are no fields; no superblock has version 0, 2 or 4."""
        lines = listing(self.disk).splitlines()
        self.disk[16] = 1
        self.assertEqual(listing(self.disk).splitlines(), lines[:-1])
        self.assertIsNone(note_of(self.disk))
        for version in (0, 2, 4, 255):
            self.disk[16] = version
            with self.assertRaisesRegex(Unrecovered, "Version"):
                recover(MemoryDisk(self.disk))
            self.assertIsNone(note_of(self.disk))

    def test_known(self):
        """Where the disk has 72 bytes, an open gate, its name and version 3."""
        digest = bytes.fromhex(DIGEST)
        self.assertEqual(note_of(self.disk[:NOTE_END]), (digest, 24))
        self.assertIsNone(note_of(self.disk[:NOTE_END - 1]))
        for at in (0, 8, 15, 17):
            changed = bytearray(self.disk)
            changed[at] ^= 1
            self.assertIsNone(note_of(changed))

    def test_older(self):
        """A disk of an older program, and one that an older program reads."""
        older = format_disk(SMALLEST, PUTS, 1)
        self.assertEqual((older[16], any(older[32:4096])), (1, False))
        self.assertNotIn("program", listing(older))
        self.assertFalse(differs(older, b""))
        with switched(programs=False):
            self.assertEqual(format_disk(SMALLEST, PUTS)[16:72].hex(" "), "01" + WRITTEN[2:47] + 40 * " 00")
            with self.assertRaisesRegex(Unrecovered, "Version"):
                recover(MemoryDisk(self.disk))

    def test_differs(self):
        self.assertFalse(differs(self.disk, PUTS))
        for other in (b"", PUTS[:-1], PUTS + b"\0", b"\x7fELF" + PUTS[4:]):
            self.assertTrue(differs(self.disk, other))
        self.disk[71] = 1
        self.assertTrue(differs(self.disk, PUTS))

    def test_no_disk(self):
        """What `format` leaves alone holds something that is no disk."""
        for before, refusal in ((b"\1", "NotADisk"), (b"\0\1", "NotADisk"), (b"\xa5" + bytes(SMALLEST.size), "NotADisk"), (bytes(9), None), (bytes(self.disk), "AlreadyFormatted")):
            case = FormatCase(SMALLEST, PUTS, before)
            self.assertEqual(case.outcome()[0], refusal)
        self.assertEqual(FormatCase(SMALLEST, PUTS, b"\1").outcome()[1], b"\1")
        with switched(programs=False):
            self.assertEqual(FormatCase(SMALLEST, PUTS, b"\1").outcome()[0], "File")
