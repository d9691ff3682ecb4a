"""Snapshots: files beside a history with the program's state behind so many events. What one saves, whose it is, and with what a look begins."""
from copy import deepcopy
from hashlib import sha256

from model.beside import FRONT, MARK, VERSION_OF_LONG_JOURNAL, Joined, read_front, read_history
from model.devices import MemoryDisk
from model.layout import CLOSED, OPEN, SUPERBLOCK, SUPERBLOCK_AT, Geometry, Header, write_contents, write_gate
from model.recovery import Unrecovered, read_journal
from model.stretches import Recording
from model.tables import encode_tables

LEADING, DIGEST = slice(72, 80), slice(80, 112)  # in a snapshot's front: how many bytes of its history lead there, and their digest


def note_of(leading):
    """What a snapshot notes of the bytes of its history that lead there."""
    return len(leading).to_bytes(8, "little") + sha256(leading).digest()


def lengths_of(contents):
    """Of the bytes of a history: how many lead to its state behind so many events, at each end of a batch of its long journal."""
    size, (kept, _) = read_front(contents).size, read_history(contents)
    batches, _ = read_journal(contents[size:], VERSION_OF_LONG_JOURNAL)
    count, lengths = kept.last - sum(map(len, batches)), {}
    for batch in [[], *batches]:
        size += (3 + sum(len(event.encoding()) for event in batch)) * bool(batch)
        count += len(batch)
        lengths[count] = size
    return lengths


def bytes_without_events(part, note=b""):
    """The front of a part, at times with a snapshot's note, and its state in area 0, up to where the long journal begins."""
    contents = bytearray([OPEN]) + bytes(SUPERBLOCK_AT - 1) + MARK + part.fields + note
    geometry, tables = Geometry(*SUPERBLOCK.unpack_from(contents, SUPERBLOCK_AT)[2:]), encode_tables(part.machine, b"")
    contents += bytes(geometry.size - len(contents))
    disk, memory = MemoryDisk(contents), deepcopy(part.machine.memory)
    memory.dirty[0] = set(range(1, geometry.pages))
    write_contents(disk, geometry, 0, Header(1, part.first, 0, len(tables)), tables, memory)
    write_gate(disk, geometry.area_at(0), OPEN)
    return bytes(contents)


def bytes_of_snapshot(part, note):
    return bytes_without_events(part, note) + bytes([CLOSED])


def saved_by(snapshot, contents):
    """What a snapshot saves of the history of these bytes; None where it can't be read, or is another one's."""
    try:
        saved, _ = read_history(snapshot)
    except Unrecovered:
        return None
    length = int.from_bytes(snapshot[LEADING], "little")
    is_own = FRONT <= length <= len(contents) and sha256(contents[:length]).digest() == snapshot[DIGEST]
    return saved if is_own else None


def begun_at(kept, contents, snapshots, at):
    """What a history has for a look that begins behind so many events: from the nearest of its snapshots, by their numbers, or all of it. Only that one is
    looked at."""
    nearest = max((number for number in snapshots if number <= at), default=None)
    saved = None if nearest is None else saved_by(snapshots[nearest], contents)
    return kept if saved is None else Joined(kept.fields, saved.first, saved.machine, kept.events[saved.first - kept.first:])


class KeptRecording(Recording):
    """Of what a history has, or has from a snapshot on."""

    def __init__(self, kept):
        self.machine, self.events = kept.machine, kept.events
        self.first, self.checkpoint, self.whole, self.is_misled = kept.first, kept.first, kept.last, False
