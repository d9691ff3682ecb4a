"""Changes of the area that isn't in use and of its journal, or of the newer one that it leads to: about a third leave that so. And changes
behind which the older area fits as before, and mostly leads elsewhere."""
import struct

from cases.changes import Saved, change
from cases.damage import HIGH_COUNTS, OFFERED, batch
from cases.saved_disks import FILLS, run_lines, torn
from model.abi import PAGE
from model.devices import MemoryDisk, StoppingDisk, filled
from model.events import Eof, Input, Place, Run, RunLong, Tick
from model.layout import CLOSED, COUNTERS, HEADER, HEADER_AT, LAST_GENERATION, OPEN, PAGES_AT, TABLES_LIMIT, Header, header_of, write_gate
from model.recorded import fitting_older
from model.recovery import Unrecovered, pick_area, read_area, read_journal, read_superblock, saved_in
from model.session import Session
from model.tables import encode_tables


class OlderArea:
    """Of a disk that recovers."""

    def __init__(self, chance, disk):
        self.chance, self.device = chance, MemoryDisk(disk)
        self.geometry = read_superblock(self.device)
        self.newer = pick_area(self.device, self.geometry)
        self.area = 1 - self.newer
        self.at, self.journal = self.geometry.area_at(self.area), self.geometry.journal_at(self.area)

    def change(self):
        kinds = {self.change_byte: 6, self.change_generations: 2, self.change_counts: 2, self.change_offset: 1, self.copy_half: 2,
                 self.change_journal: 3, self.change_output: 1, self.change_state: 2, self.stop_checkpoint: 2}
        for kind in self.chance.choices(list(kinds), kinds.values(), k=self.chance.choice([1, 1, 1, 2])):
            kind()

    def header(self, area):
        return header_of(self.device, self.geometry, area)

    def write_header(self, area, **fields):
        header = Header(**{**vars(self.header(area)), **fields})
        self.device.write(self.geometry.area_at(area) + HEADER_AT, header.encoding())

    def batches(self):
        """Those of the journal, and the place behind them; none of one that is damaged."""
        try:
            return read_journal(self.device.read(self.journal, self.geometry.journal), self.header(self.area).version)
        except Unrecovered:
            return [], 0

    def write_batches(self, batches):
        """As many as there is room for."""
        data = b""
        for events in batches:
            more = batch(b"".join(event.encoding() for event in events))
            if len(data) + len(more) <= self.geometry.journal and len(more) <= 4096 + 4:
                data = data[:-1] + more
        self.device.write(self.journal, data or bytes([CLOSED]))

    def places(self):
        """Where a byte stands, one of each kind."""
        chance, used = self.chance, self.batches()[1]
        tables, length = self.geometry.tables_at(self.area), min(max(self.header(self.area).tables_length, 1), TABLES_LIMIT)
        fields = [self.at + HEADER_AT + field for field in (0, 7, 8, 15, 16, 23, 24, 27, 28, 31)]
        end = self.at + self.geometry.area_length
        return [self.at, *fields, self.at + chance.randrange(1, HEADER_AT), self.at + chance.randrange(HEADER_AT + HEADER.size, PAGE),
                tables, tables + chance.randrange(length), tables + chance.randrange(length), tables + length - 1, tables + length,
                self.geometry.page_at(self.area, 0), self.geometry.page_at(self.area, 1) + chance.randrange(PAGE),
                chance.randrange(self.at + PAGES_AT + PAGE, end), end - 1,
                self.journal, self.journal + 1, self.journal + 2, self.journal + 3, self.journal + chance.randrange(used + 1),
                self.journal + used, self.journal + min(used + 1 + chance.randrange(9), self.geometry.journal - 1)]

    def change_byte(self):
        at, chance = self.chance.choice(self.places()), self.chance
        byte = self.device.read(at, 1)[0]
        self.device.write(at, bytes([chance.choice([byte ^ 1, byte ^ 1, byte ^ 2, byte ^ 128, OPEN, CLOSED, chance.randrange(256)])]))

    def change_generations(self):
        """Either alone; or both, one apart, at their least, where one is 0, or at their greatest."""
        chance, generation = self.chance, self.header(self.newer).generation
        if chance.random() < 0.4:
            older = chance.choice([generation - 2, generation, generation + 1, generation + 2, 0, LAST_GENERATION])
            return self.write_header(self.area, generation=max(older, 0))
        older = chance.choice([0, 0, 1, 255, 2 ** 32 - 1, LAST_GENERATION - 1])
        self.write_header(self.area, generation=older)
        return self.write_header(self.newer, generation=older + 1)

    def change_counts(self):
        """The numbers of events, of one or of both alike."""
        more = self.chance.choice([-1, 1, 7, COUNTERS // 2, COUNTERS - 100, COUNTERS])
        for area in self.chance.choice([[self.area], [self.area, self.newer], [self.area, self.newer]]):
            self.write_header(area, events=max(self.header(area).events + more, 0))

    def change_offset(self):
        """The output of the older area isn't compared."""
        offsets = [0, 1, 1000, COUNTERS // 2, COUNTERS - 20000, COUNTERS - 1, COUNTERS, 1 << 63]
        self.write_header(self.area, offset=self.chance.choice(offsets))

    def copy_half(self):
        """A checkpoint that was stopped within tables or pages, with the gate as a stop may leave it."""
        chance, newer = self.chance, self.geometry.area_at(self.newer)
        begin, end = sorted(chance.choices([0, HEADER_AT, PAGE, PAGE + 30, PAGES_AT, PAGES_AT + PAGE, PAGES_AT + 2 * PAGE,
                                            chance.randrange(self.geometry.area_length), self.geometry.area_length], k=2))
        old = self.device.read(self.at + begin, end - begin)
        new = self.device.read(newer + begin, end - begin)
        self.device.write(self.at + begin, torn(chance)(range(end - begin), old, new) if chance.random() < 0.5 else new)
        write_gate(self.device, self.at, chance.choice([OPEN, OPEN, OPEN, OPEN - 1]))

    def change_journal(self):
        """Batches that are fewer or more, others, or the same events in other batches, which leads to the same."""
        chance, (batches, used) = self.chance, self.batches()
        events = [event for one in batches for event in one]
        more = chance.choice([Tick(1), Place(0, 1), Input(b"a"), Eof(), RunLong(0, 1), RunLong(0, 7), Place(7, 64)])
        match chance.randrange(7):
            case 0:
                self.write_batches(batches[:-1])
            case 1:
                self.write_batches([*batches, [more]])
            case 2:
                self.write_batches([[event] for event in events])
            case 3:
                self.write_batches([events[at:at + 50] for at in range(0, len(events), 50)])
            case 4:
                at = chance.randrange(len(events) + 1)
                self.write_batches([events[:at] + [more] + events[at + 1:]])
            case 5:
                self.write_batches([])
            case 6:
                self.device.write(self.journal + used, chance.choice([b"\xa5", b"\xa5\0\0", b"\xa5\x01\0", b"\xa5\xff\xff", b"\xa5\x01\0\x04\xa5"]))

    def write_saved(self, area, saved):
        """What no record has room for is dropped."""
        try:
            tables = encode_tables(saved.state, saved.held, self.header(area).version)
        except (struct.error, ValueError):
            return
        if len(tables) <= TABLES_LIMIT:
            self.device.write(self.geometry.tables_at(area), tables)
            self.write_header(area, tables_length=len(tables))

    def changed_saved(self, area, alter):
        try:
            found = saved_in(self.device, self.geometry, area)
        except Unrecovered:
            return
        saved = Saved(found.machine, bytearray(found.held))
        alter(saved)
        self.write_saved(area, saved)

    def change_output(self):
        """Held output, of either area: it isn't compared."""
        def alter(saved):
            saved.held[:] = self.chance.choice([b"", b"x", bytes(16384), bytes(saved.held) + b"y"])
        self.changed_saved(self.chance.choice([self.area, self.newer]), alter)

    def change_state(self):
        """Of either area, in its meaning, or by a byte of a page."""
        area = self.chance.choice([self.area, self.newer])
        if self.chance.random() < 0.3:
            at = self.geometry.page_at(area, self.chance.randrange(1, self.geometry.pages)) + self.chance.randrange(PAGE)
            return self.device.write(at, bytes([self.device.read(at, 1)[0] ^ 1]))
        return self.changed_saved(area, lambda saved: change(self.chance, saved))

    def stop_checkpoint(self):
        """What a stop within one more checkpoint leaves."""
        leave = self.chance.choice([torn(self.chance), filled(self.chance.choice(FILLS))])
        try:
            stopping = StoppingDisk(self.device.bytes, self.chance.randrange(2, 12), leave)
            run_lines(Session(stopping), self.chance.choice([[b"checkpoint"], [b"tick 1", b"commit", b"checkpoint"]]))
        except Unrecovered:
            return
        self.device.bytes[:] = stopping.bytes


class MisleadingArea(OlderArea):
    """Of an older area that fits."""

    def mislead(self):
        """At times the counts of both areas are high, too."""
        chance = self.chance
        kinds = [self.change_page, self.change_register, self.replace_event, self.replace_event, self.refuse_event, self.refuse_event]
        chance.choice(kinds if self.batches()[0] else kinds[:2])()
        if chance.random() < 0.1:
            more = chance.choice(HIGH_COUNTS[:2])
            for area in (0, 1):
                self.write_header(area, events=self.header(area).events + more)

    def change_page(self):
        """A byte of the memory of either area."""
        at = self.geometry.page_at(self.chance.choice([self.area, self.area, self.newer]), self.chance.randrange(1, self.geometry.pages))
        at += self.chance.randrange(PAGE)
        self.device.write(at, bytes([self.device.read(at, 1)[0] ^ self.chance.choice([1, 128])]))

    def change_register(self):
        """Of a thread of either area, if any is left."""
        def alter(saved):
            for thread in self.chance.sample([one for one in saved.state.threads.values() if not one.has_ended][:3], 1):
                thread.registers[self.chance.randrange(1, 32)] ^= self.chance.choice([1, 1 << 31])
        if any(not one.has_ended for one in saved_in(self.device, self.geometry, self.area).machine.threads.values()):
            self.changed_saved(self.area, alter)

    def replace_event(self):
        """By one that is accepted there, mostly; those behind it may be refused then."""
        self.put_in_place([Tick(1), Tick(7), Input(b"b"), Place(0, 1), Run(0, 1), Run(0, 9), RunLong(0, 3)], lambda refusal: refusal is None)

    def refuse_event(self):
        """By one that is refused there."""
        self.put_in_place(OFFERED, lambda refusal: refusal is not None)

    def put_in_place(self, offered, is_right):
        """One of what is offered in the place of an event, as the machine answers there; nothing where none is right."""
        found, events = saved_in(self.device, self.geometry, self.area), [event for one in self.batches()[0] for event in one]
        at = self.chance.randrange(len(events))
        for event in events[:at]:
            if found.machine.refusal_of(event, 0) is None:
                found.machine.step(event)
        right = [event for event in offered if is_right(found.machine.refusal_of(event, 0)) and event != events[at]]
        if right:
            events[at] = self.chance.choice([event for event in right if not isinstance(event, RunLong) or found.version > 1] or [events[at]])
            self.write_batches([events[at:at + 50] for at in range(0, len(events), 50)])


def fits_older(disk):
    """Whether a disk has an older area that fits."""
    try:
        device = MemoryDisk(disk)
        return fitting_older(device, read_area(device, read_superblock(device))) is not None
    except Unrecovered:
        return False


def mislead(chance, disk):
    """A disk without an older area that fits stays as it is."""
    if fits_older(disk):
        MisleadingArea(chance, disk).mislead()
