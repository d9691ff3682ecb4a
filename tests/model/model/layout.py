"""The disk's layout, and formatting.

Numbers are little-endian. A gate byte is open exactly where it is 0xA5. The superblock comes first, then two areas, each
with a header, tables and pages, then two journals.
"""
import struct
from dataclasses import dataclass, field
from hashlib import sha256

from model.abi import PAGE
from model.devices import MemoryDisk
from model.processor import Memory
from model.switches import SWITCHES, newest_superblock, newest_version
from model.tables import encode_tables
from model.threads import State

OPEN, CLOSED = 0xA5, 0
MAGIC = b"CKRTDISK"
MAKING = b"CKRTMAKE"  # in the place of that, in a file that is in the making
SUPERBLOCK_AT = 8
SUPERBLOCK = struct.Struct("<8sIIII")  # magic, version, pages, harts, length of a journal
SUPERBLOCK_END = SUPERBLOCK_AT + SUPERBLOCK.size
NOTED = 3  # the version of a superblock that notes its image
NOTE = struct.Struct("<32sQ")  # digest and length of the image, behind the other fields
NOTE_END = SUPERBLOCK_END + NOTE.size
HEADER_AT = 8
HEADER = struct.Struct("<QQQII")  # generation, events, offset of the held output, length of the tables, version
TABLES_AT = 4096
TABLES_LIMIT = 98304
PAGES_AT = 102400
BATCH_LIMIT = 4096
COUNTERS = 1 << 62  # the number of events, and that of output bytes, lie below
LAST_GENERATION = (1 << 64) - 1


@dataclass(frozen=True)
class Geometry:
    """How many pages and harts the machine has, and how many bytes a journal."""
    pages: int
    harts: int
    journal: int

    @property
    def area_length(self):
        return PAGES_AT + PAGE * self.pages

    def area_at(self, area):
        return 4096 + area * self.area_length

    def tables_at(self, area):
        return self.area_at(area) + TABLES_AT

    def page_at(self, area, page):
        return self.area_at(area) + PAGES_AT + PAGE * page

    def journal_at(self, area):
        return self.area_at(2) + area * self.journal

    @property
    def size(self):
        return self.journal_at(2)

    @property
    def image_limit(self):
        return PAGE * (self.pages - 1)

    def is_possible(self):
        journal_fits = 4096 <= self.journal <= 1048576 and self.journal % 4096 == 0
        return 16 <= self.pages <= 65536 and 1 <= self.harts <= 8 and journal_fits


@dataclass(frozen=True)
class Header:
    """Of an area: its generation, the events and the held output's offset of its state, and its tables."""
    generation: int
    events: int
    offset: int
    tables_length: int
    version: int = field(default_factory=newest_version)  # of the tables and the journal

    def encoding(self):
        return HEADER.pack(self.generation, self.events, self.offset, self.tables_length, self.version)


def header_of(disk, geometry, area):
    return Header(*HEADER.unpack(disk.read(geometry.area_at(area) + HEADER_AT, HEADER.size)))


def write_gate(disk, at, gate):
    disk.write(at, bytes([gate]))


def write_contents(disk, geometry, area, header, tables, memory):
    """Tables, the pages that are dirty for the area, and the header's fields; the area's gate and the marks are the caller's."""
    disk.write(geometry.tables_at(area), tables)
    for page in sorted(memory.dirty[area]):
        disk.write(geometry.page_at(area, page), memory.page(page))
    disk.write(geometry.area_at(area) + HEADER_AT, header.encoding())


class Unformatted(Exception):
    """The name of what `format` refuses."""


def refusal_of_format(length, geometry, image):
    if not geometry.is_possible():
        return "BadConfig"
    if len(image) > geometry.image_limit:
        return "ImageTooLong"
    return "TooSmall" if length < geometry.size else None


def fresh_tables(pages, version=None):
    state = State()
    state.add_initial_thread(pages)
    return encode_tables(state, b"", version)


def superblock_of(geometry, image, version):
    """The fields."""
    note = NOTE.pack(sha256(image).digest(), len(image)) if version == NOTED else b""
    return SUPERBLOCK.pack(MAGIC, version, geometry.pages, geometry.harts, geometry.journal) + note


def note_of(contents):
    """Digest and length of the image that a disk was formatted with; None where its program is unknown. Nothing but formatting writes them, and
    recovery doesn't read them."""
    is_known = SWITCHES.programs and len(contents) >= NOTE_END and contents[0] == OPEN
    if not is_known or SUPERBLOCK.unpack_from(contents, SUPERBLOCK_AT)[:2] != (MAGIC, NOTED):
        return None
    return NOTE.unpack_from(contents, SUPERBLOCK_END)


def differs(contents, image):
    """Whether a disk is known to be another program's than the image's."""
    return note_of(contents) not in (None, (sha256(image).digest(), len(image)))


def format_onto(disk, geometry, image, version=None):
    """Area 0 with the fresh state, all gates but its own closed, and the superblock's gate last of all.

    An older version is that of a disk which an older program wrote, whose superblock notes nothing.
    """
    superblock = newest_superblock() if version is None else 1
    version = version or newest_version()
    refusal = refusal_of_format(len(disk), geometry, image)
    if refusal is None:
        disk.sync()
        refusal = "AlreadyFormatted" if disk.read(0, 1)[0] == OPEN else None
    if refusal is not None:
        raise Unformatted(refusal)
    tables = fresh_tables(geometry.pages, version)
    memory = Memory(geometry.pages, image + bytes(geometry.image_limit - len(image)))
    write_gate(disk, geometry.area_at(0), OPEN)
    write_contents(disk, geometry, 0, Header(1, 0, 0, len(tables), version), tables, memory)
    write_gate(disk, geometry.journal_at(0), CLOSED)
    write_gate(disk, geometry.area_at(1), CLOSED)
    disk.write(SUPERBLOCK_AT, superblock_of(geometry, image, superblock))
    disk.sync()
    write_gate(disk, 0, OPEN)
    disk.sync()


def format_disk(geometry, image, version=None):
    """The bytes of a formatted disk that held zeros before."""
    contents = bytearray(geometry.size)
    format_onto(MemoryDisk(contents), geometry, image, version)
    return contents
