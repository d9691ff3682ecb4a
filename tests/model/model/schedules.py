"""The schedule of a disk: what a drive notes of it in the bytes that are no fields of the superblock, and which drive is refused for it.

There is room for two notes, and a byte that tells which is in use. Only on a disk whose program is known is one looked at, or written.
"""
import struct
from dataclasses import dataclass

from model.abi import PAGE
from model.feeding import Undriven
from model.layout import note_of
from model.switches import SWITCHES

IN_USE_AT, FIRST = 2048, 1  # where the byte is, and with which value the first note is in use
NOTES_AT = 2560, 3072
NOTE = struct.Struct("<QQQ")  # steps of a turn, whether there is a seed, the seed


@dataclass(frozen=True)
class Schedule:
    turn: int
    seed: int | None = None

    @property
    def numbers(self):
        return [self.turn] if self.seed is None else [self.turn, self.seed]

    def encoding(self):
        return NOTE.pack(self.turn, self.seed is not None, self.seed or 0)


def decoded(note):
    """None where the bytes are no note."""
    turn, has_seed, seed = NOTE.unpack(note)
    if turn == 0 or has_seed > 1 or seed and not has_seed:
        return None
    return Schedule(turn, seed if has_seed else None)


def has_notes(contents):
    """Whether a schedule is looked at and noted."""
    return SWITCHES.schedules and len(contents) >= PAGE and note_of(contents) is not None


def in_use(contents):
    return 0 if contents[IN_USE_AT] == FIRST else 1


def schedule_of(contents):
    """The one that is noted, if one is."""
    if not has_notes(contents):
        return None
    at = NOTES_AT[in_use(contents)]
    return decoded(contents[at:at + NOTE.size])


def require_schedule(contents, wanted, is_other):
    """A drive goes by the schedule that is noted, unless it is told to go by another."""
    noted = schedule_of(contents)
    if noted not in (None, wanted) and not is_other:
        raise Undriven("ScheduleDiffers", *noted.numbers, *wanted.numbers)


def note_schedule(disk, wanted):
    """Unless it is noted already: the note that isn't in use, and then the byte, each durable before the next."""
    contents = disk.read(0, PAGE)
    if not has_notes(contents) or schedule_of(contents) == wanted:
        return
    other = 1 - in_use(contents)
    disk.sync()
    disk.write(NOTES_AT[other], wanted.encoding())
    disk.sync()
    disk.write(IN_USE_AT, bytes([other + 1]))
    disk.sync()
