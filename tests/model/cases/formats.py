"""The word `format`, on files that are missing, short, long, or hold other bytes or a disk already."""
from dataclasses import dataclass

from model.devices import MemoryDisk
from model.layout import MAGIC, MAKING, OPEN, Geometry, Unformatted, format_disk, format_onto, refusal_of_format
from model.switches import SWITCHES

SMALLEST = Geometry(16, 1, 4096)
GATE, NAME = slice(0, 8), slice(8, 16)  # of a file: its gate with the bytes behind it, and where a disk has its name


def is_disk_already(before):
    """A file that is as long as a disk, behind an open gate, with a disk's name."""
    return len(before) >= SMALLEST.size and before[0] == OPEN and before[NAME] == MAGIC


def may_be_written(before, size):
    """A file that nobody misses: it is empty, or has zeros as far as the disk goes, or a making or a format that was cut left it."""
    is_left = len(before) >= 16 and not any(before[GATE]) and before[NAME] in (MAKING, MAGIC)
    return not before or is_left or not any(before[:size])


@dataclass
class FormatCase:
    """`before` is what the disk's file holds, None where there is none."""
    geometry: Geometry
    image: bytes
    before: bytes | None

    def outcome(self):
        """The refusal or None, and what the file holds then. A short file is filled before formatting looks at its first byte:
        one that is shorter than any disk from its start, another behind its end."""
        refusal = refusal_of_format(self.geometry.size, self.geometry, self.image)
        if refusal is not None:
            return refusal, self.before
        before = self.before or b""
        if not is_disk_already(before) and not may_be_written(before, self.geometry.size):
            return "NotADisk" if SWITCHES.programs else "File", self.before
        kept = before if len(before) >= SMALLEST.size else b""
        contents = bytearray(kept.ljust(self.geometry.size, b"\0"))
        try:
            format_onto(MemoryDisk(contents), self.geometry, self.image)
        except Unformatted as fault:
            return str(fault), bytes(contents)
        return None, bytes(contents)


def random_geometry(chance):
    pages = chance.choice([16] * 70 + [17] * 9 + [64, 15, 0, 1024, 1025, 65537, 1 << 20, (1 << 32) - 1])
    harts = chance.choice([1] * 40 + [2, 8, 0, 9, (1 << 32) - 1])
    journal = chance.choice([4096] * 70 + [8192, 1048576, 0, 4095, 4097, 2048, 1052672, (1 << 32) - 4096])
    return Geometry(pages, harts, journal)


def format_case(chance, seed):
    geometry = random_geometry(chance)
    size, limit = (geometry.size, geometry.image_limit) if geometry.is_possible() else (4096, 4096)
    image = chance.randbytes(chance.choice([0, 1, 24, 4095, 4096, 5000, limit, limit, limit + 1, limit + 4096]))
    length = chance.choice([None, 0, 1, 4096, size - 1, size, size, size + 1, size + 4096])
    if length is None:
        return FormatCase(geometry, image, None)
    before = bytearray(chance.choice([chance.randbytes, bytes, bytes])(length))
    if before and chance.random() < 0.5:
        before[0] = OPEN if chance.random() < 0.3 else chance.choice([0, 0, 1, OPEN - 1, OPEN ^ 0x80, 255])
    if length >= 16 and chance.random() < 0.4:
        before[GATE] = bytes([OPEN if chance.random() < 0.3 else 0]) + bytes(7)
        before[NAME] = chance.choice([MAKING, MAGIC, bytes(8)])
    if chance.random() < 0.1 and geometry.is_possible():
        before = format_disk(geometry, b"")
    return FormatCase(geometry, image, bytes(before))
