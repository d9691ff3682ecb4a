"""The input of a drive: what a program is given next of a file, and the record of how much it has taken.

The record lies in the 4,096 bytes behind those that the disk needs, with a slot for each area.
"""
import struct
from dataclasses import dataclass

from model.events import INPUT_LIMIT, Eof, Input
from model.layout import COUNTERS, header_of
from model.machine import INPUT_QUEUE
from model.recovery import events_of_journal

RECORD_LENGTH = 4096
SLOTS_APART = 2048
SLOT = struct.Struct("<8sQQQQ")  # name, version, generation, events, bytes taken
SLOT_NAME, SLOT_VERSION = b"CKRTFEED", 1


class Undriven(Exception):
    """The name of why a drive doesn't begin, and what its text tells of that: paths, words and numbers. Nothing is changed then."""

    def __init__(self, name, *told):
        super().__init__(name)
        self.told = [str(it) for it in told]


@dataclass(frozen=True)
class Slot:
    """Of an area: its generation and number of events, and how many bytes of input these events took."""
    generation: int
    events: int
    taken: int

    def encoding(self):
        return SLOT.pack(SLOT_NAME, SLOT_VERSION, self.generation, self.events, self.taken)


def slot_at(geometry, area):
    return geometry.size + area * SLOTS_APART


def slot_of(disk, geometry, area):
    """None where these bytes are no slot, or aren't there."""
    data = disk.read(slot_at(geometry, area), SLOT.size)
    if len(data) < SLOT.size:
        return None
    name, version, *numbers = SLOT.unpack(data)
    slot = Slot(*numbers)
    return slot if (name, version) == (SLOT_NAME, SLOT_VERSION) and slot.taken < COUNTERS else None


def taken_by(events):
    return sum(len(event.data) for event in events if isinstance(event, Input))


def recorded_of_area(disk, found):
    """How many bytes the events up to the saved state took; None where nobody recorded it."""
    header = header_of(disk, found.geometry, found.area)
    if (header.generation, header.events) == (1, 0):
        return 0
    slot = slot_of(disk, found.geometry, found.area)
    is_of_area = slot is not None and (slot.generation, slot.events) == (header.generation, header.events)
    return slot.taken if is_of_area else None


def taken_of(disk, found, said):
    """How many bytes the program that was recovered has taken. What the words say counts where the disk can't tell, and up to
    the saved state."""
    recorded, by_journal = recorded_of_area(disk, found), taken_by(events_of_journal(disk, found)[0])
    if recorded is None:
        if said is None:
            raise Undriven("NotRecorded", "--input-from")
        return said + by_journal
    if said is not None and said > recorded + by_journal:
        raise Undriven("OffsetDiffers", recorded + by_journal)
    return recorded + by_journal


def next_input(data, taken, machine):
    """A piece of 64 bytes or all that are left, once the queue has room for the whole of it; behind the last byte the end."""
    if not machine.is_running or machine.is_input_closed:
        return None
    piece = data[taken:taken + INPUT_LIMIT]
    if not piece:
        return Eof()
    return Input(piece) if len(machine.input) + len(piece) <= INPUT_QUEUE else None


class Supply:
    """A file's bytes for the program of a session, from those on that it hasn't taken."""

    def __init__(self, session, data, said=None):
        self.data, self.taken = data, taken_of(session.disk, session.recovered, said)
        if self.taken > len(data):
            raise Undriven("InputTooShort", len(data), self.taken)
        self.make_room(session)

    def make_room(self, session):
        """A disk without room for the record becomes longer."""
        missing = session.geometry.size + RECORD_LENGTH - len(session.disk)
        session.disk.bytes.extend(bytes(max(0, missing)))

    def next(self, machine):
        return next_input(self.data, self.taken, machine)

    def count(self, event):
        self.taken += taken_by([event])

    def record(self, session):
        """The slot of the area that the next checkpoint writes, durable before that begins."""
        slot = Slot(session.recovered.generation + 1, session.events, self.taken)
        session.disk.write(slot_at(session.geometry, 1 - session.recovered.area), slot.encoding())
        session.disk.sync()
