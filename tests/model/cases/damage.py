"""Disks with damage: bytes changed in every part, batches that are no batches, full journals, wrong lengths, refused events."""
import struct
from copy import deepcopy

from cases.guests import Guest
from cases.streams import random_lines
from model.abi import ALL_ONES
from model.devices import MemoryDisk
from model.events import Eof, Input, Place, Run, RunLong, Tick
from model.layout import CLOSED, COUNTERS, HEADER_AT, NOTE_END, OPEN, TABLES_AT, Geometry, Header, format_disk, fresh_tables, header_of
from model.lines import serve_disk
from model.recovery import Unrecovered, unmade
from model.session import Session
from model.switches import SWITCHES

TICK = Tick(1).encoding()
# Events' bytes by their number, to fill a journal up to a given byte.
FILLERS = {0: b"", 1: Eof().encoding(), 2: 2 * Eof().encoding(), 3: Input(b"a").encoding(), 4: Input(b"aa").encoding()}


def batch(events, gate_behind=bytes([CLOSED])):
    return bytes([OPEN]) + struct.pack("<H", len(events)) + events + gate_behind


def filler(length):
    """Events of just that many bytes."""
    return length // 5 * TICK + FILLERS[length % 5]


class Damage:
    """A disk with some committed batches, and what is done to it."""

    def __init__(self, chance):
        self.chance = chance
        self.geometry = Geometry(16, chance.choice([1, 3, 8]), chance.choice([4096, 8192]))
        self.disk = format_disk(self.geometry, Guest(chance).image)
        lines = random_lines(chance, self.geometry.harts)[:chance.choice([3, 8, 20])]
        commits = [b"commit\n" if chance.random() < 0.3 else b"" for _ in lines]
        serve_disk(self.disk, b"".join(line + b"\n" + commit for line, commit in zip(lines, commits)) + b"commit\n")
        self.used = Session(MemoryDisk(self.disk)).journal_used
        self.areas = [self.geometry.area_at(area) for area in (0, 1)]
        self.journal = self.geometry.journal_at(0)
        self.tables_length = len(fresh_tables(self.geometry.pages))
        kinds = [self.superblock, self.header, self.second_header, self.second_area, self.journal_byte, self.journal_tail,
                 self.journal_tail, self.stopped_commit, self.wrong_length, self.full_journal, self.tables, self.page,
                 self.journal_end, self.unread_bytes]
        kinds += [self.note, self.without_note] if SWITCHES.programs else []
        for kind in chance.choices(kinds, k=chance.choice([1, 1, 2])):
            kind()
            if kind == self.wrong_length:
                break

    def put(self, at, data):
        self.disk[at:at + len(data)] = data[:max(0, len(self.disk) - at)]

    def superblock(self):
        at = self.chance.choice([0, 8, 12, 15, 16, 17, 20, 21, 22, 24, 25, 28, 29, 30])
        self.disk[at] = self.chance.choice([0, 1, 2, 8, 9, 15, 16, 17, 0x10, 0x20, 255, OPEN, OPEN - 1])

    def note(self):
        """Bytes of it, from the digest's first to the length's last."""
        for at in self.chance.sample([32, 63, 64, 71, self.chance.randrange(32, 72)], 2):
            self.disk[at] = self.chance.randrange(256)

    def without_note(self):
        """A superblock of version 1, in which the same bytes are no fields; or of one that there isn't."""
        self.disk[16] = self.chance.choice([1, 1, 1, 0, 2, 4])

    def header(self, area=0):
        at = self.chance.choice([0, 8, 8, 15, 16, 20, 23, 24, 28, 31, 32, 33, 34, 36, 36, 37, 39])
        self.disk[self.areas[area] + at] = self.chance.choice([0, 1, 2, 9, 0x3F, 0x40, 0x7F, 170, 171, OPEN, 255])

    def second_header(self):
        self.disk[self.areas[1]] = OPEN
        self.header(1)

    def second_area(self):
        """A copy of the first area, of another generation, with or without a copy of the journal."""
        chance, first, second = self.chance, *self.areas
        self.put(second, self.disk[first:second])
        self.disk[second + 8] = chance.choice([1, 2, 3, 0])
        if chance.random() < 0.3:
            self.disk[second] = chance.choice([CLOSED, OPEN - 1, OPEN])
        if chance.random() < 0.5:
            self.put(self.geometry.journal_at(1), self.disk[self.journal:self.geometry.journal_at(1)])
        if chance.random() < 0.3:
            self.disk[second + chance.choice([24, 16])] = 7
        if chance.random() < 0.2:
            self.disk[second + 36] = chance.choice([0, 2])

    def journal_byte(self):
        self.disk[self.journal + self.chance.randrange(max(self.used, 1) + 4)] = self.chance.randrange(256)

    def random_event(self):
        chance = self.chance
        place = Place(chance.randrange(8), chance.randrange(1, 6))
        run = Run(chance.randrange(8), chance.randrange(1, 30))
        tick = Tick(chance.choice([1, ALL_ONES]))
        events = [place, run, tick, Input(b"ab"), Eof(), Tick(1), Input(b"a")]
        if SWITCHES.long_runs:
            events += [RunLong(chance.randrange(8), chance.choice([1, 20, 1000000, 0, 1000001]))]
        return chance.choice(events)

    def journal_tail(self):
        """One more batch, perhaps of a wrong length, with a wrong byte, or without its gate behind."""
        chance = self.chance
        events = bytearray(b"".join(self.random_event().encoding() for _ in range(chance.choice([1, 1, 2, 3]))))
        if chance.random() < 0.3:
            events[chance.randrange(len(events))] = chance.choice([0, 1, 6, 8, 64, 65, 255])
        behind = chance.choice([b"\0", b"\0", b"\0", b"\xff", b"\xa5", b"\xa5\0\0", b""])
        tail = bytearray(batch(events, behind))
        if chance.random() < 0.2:
            tail[1:3] = struct.pack("<H", chance.choice([0, len(events) - 1, len(events) + 1, 4096, 4097, 65535]))
        self.put(self.journal + self.used, tail)

    def stopped_commit(self):
        """Any bytes behind the last gate, as a stop within a commit may leave; at times in the gate itself."""
        self.put(self.journal + self.used + 1, self.chance.randbytes(self.chance.choice([4, 20, 200])))
        if self.chance.random() < 0.3:
            self.disk[self.journal + self.used] = self.chance.randrange(256)

    def wrong_length(self):
        whole, journal = len(self.disk), self.geometry.journal
        length = self.chance.choice([0, 1, 31, 32, 100, 4095, 4096, 4097, 5000, whole - 1, whole - journal, whole - 4096,
                                     whole + 1, whole + 4096])
        self.disk = self.disk[:length] + bytes(max(0, length - whole))

    def full_journal(self):
        """Batches of ticks nearly to the end, and perhaps one that ends at it or just beside it."""
        left = self.chance.choice([0, 8, 300])
        while True:
            tail = batch(self.chance.choice([1, 10, 200]) * TICK)
            if self.used + len(tail) > self.geometry.journal - left:
                break
            self.put(self.journal + self.used, tail)
            self.used += len(tail) - 1
        length = self.geometry.journal - self.used - self.chance.choice([3, 4, 5])
        if self.chance.random() < 0.5 and 1 <= length <= 4096:
            self.put(self.journal + self.used, batch(filler(length))[:self.geometry.journal - self.used])

    def journal_end(self):
        """A chain of batches whose end is one of the last bytes, with open gates there."""
        end = self.geometry.journal - self.chance.choice([1, 2, 3, 4])
        self.put(self.journal + self.geometry.journal - 2, bytes([OPEN, OPEN]))
        at = 0
        while end - at > 3:
            length = min(3500, end - at - 3)
            self.put(self.journal + at, batch(filler(length), b""))
            at += 3 + length

    def tables(self):
        self.disk[self.areas[0] + TABLES_AT + self.chance.randrange(self.tables_length)] ^= self.chance.choice([1, 2, 128])

    def page(self):
        self.disk[self.areas[0] + 102400 + 4096 + self.chance.randrange(4096 * 15)] = self.chance.randrange(256)

    def unread_bytes(self):
        """Those of the superblock, the header and behind the tables that mean nothing."""
        first, behind = self.areas[0], TABLES_AT + self.tables_length
        for at in (1, 7, NOTE_END if SWITCHES.programs else 32, 4095, first + 1, first + 7, first + 40, first + behind, first + TABLES_AT + 4000):
            self.disk[at] = self.chance.randrange(256)


OFFERED = [Place(0, 1), Place(0, 64), Place(7, 1), Run(0, 5), Run(1, 70), Run(7, 1), Input(bytes(64)), Eof(), RunLong(0, 9),
           RunLong(3, 70000)]
# Counts of events, or where output begins: well below and above half of the limit, and nearly at it.
HIGH_COUNTS = [COUNTERS // 2 - 20_000, COUNTERS // 2 + 20_000, COUNTERS - 2, COUNTERS - 1_500]


class RefusedEvent:
    """Of a disk whose journal in use is whole: an event there that isn't accepted at its turn, with others before it and behind it."""

    def __init__(self, chance, disk):
        self.chance, self.device = chance, MemoryDisk(disk)
        self.found, self.events = unmade(self.device)

    def put(self):
        """At times more is wrong: the chain behind it, or how high the counts are."""
        chance = self.chance
        used = self.write(self.with_refused())
        if chance.random() < 0.15:
            self.device.write(used, chance.choice([b"\xa5\0\0", b"\xa5\x01\0\x09", b"\xa5\xff\xff"]))
        if chance.random() < 0.2:
            names = chance.choice([["events"], ["offset"], ["events", "offset"]])
            self.write_header(**{name: chance.choice(HIGH_COUNTS) for name in names})

    def with_refused(self):
        """The events with it among them, at any place; without it, where the machine takes all that are offered."""
        at = self.chance.randrange(len(self.events) + 1)
        machine = deepcopy(self.found.machine)
        for event in self.events[:at]:
            machine.step(event)
        refused = [event for event in OFFERED if machine.refusal_of(event, 0) is not None and self.is_known(event)]
        return [*self.events[:at], *self.chance.sample(refused, min(1, len(refused))), *self.events[at:]]

    def is_known(self, event):
        """Whether a journal of this version has it."""
        return not isinstance(event, RunLong) or self.found.version > 1

    def write(self, events):
        """As many as there is room for, in batches of some; answers where the last gate is."""
        geometry, size = self.found.geometry, self.chance.choice([1, 3, 30])
        data = bytes([CLOSED])
        for at in range(0, len(events), size):
            more = batch(b"".join(event.encoding() for event in events[at:at + size]))
            if len(data) - 1 + len(more) <= geometry.journal:
                data = data[:-1] + more
        at = geometry.journal_at(self.found.area)
        self.device.write(at, data)
        return at + len(data) - 1

    def write_header(self, **fields):
        header = Header(**{**vars(header_of(self.device, self.found.geometry, self.found.area)), **fields})
        self.device.write(self.found.geometry.area_at(self.found.area) + HEADER_AT, header.encoding())


def refuse_event(chance, disk):
    """A disk that is damaged otherwise stays as it is."""
    try:
        RefusedEvent(chance, disk).put()
    except Unrecovered:
        pass
