"""What a session of `ckrt debug` begins with: the first area of its history, and what becomes of it once the events of that are made.

No event is made before somebody asks for one. So only then it turns out that one is refused at its turn, or that those of an older area
that fits lead elsewhere than to the checkpoint. But where the counts of the checkpoint are high all are made before a session begins.
"""
from copy import deepcopy

from model.devices import MemoryDisk
from model.mistyped import answer_to
from model.recorded import fitting_older, has_older, leads_to
from model.recovery import Unrecovered, events_of_journal, recover, unmade

LOW = 1 << 61  # from counts below it no journal leads to one that is too high; where one isn't, all events are made before
DAMAGED, DIFFERS = "Damaged", "OlderDiffers"
LINES = {DIFFERS: "its older journal doesn't lead to its last checkpoint, or it is damaged; `ckrt inspect` tells: where it prints `events K`, give --at K"}
BACK = ["bs", "bc"]
TELLING = [b"events", b"inspect", b"limit"]  # the commands of `monitor`, beside its list, that make no events


class Begun:
    """The machine of the older area, where one fits, or of the checkpoint, and the events from there on; how many led to it, to the checkpoint and to the end; whether
    one in use is refused, and the fault that ends the session once they are made, if any. Raises Unrecovered where none begins."""

    def __init__(self, contents):
        disk = MemoryDisk(bytearray(contents))
        newer, events = unmade(disk)
        self.is_refused = has_refused(disk, newer)
        older = fitting_older(disk, newer)
        if is_high(newer) and not has_older(disk, newer):
            older = None
        self.machine, self.checkpoint, self.whole = deepcopy((older or newer).machine), newer.events, newer.events + len(events)
        self.first = older.events if older else self.checkpoint
        self.events = [*(events_of_journal(disk, older)[0] if older else []), *events]
        self.fault = fault_of_events(self.is_refused or older is not None and not leads_to(disk, older, newer), older is not None)


def is_high(newer):
    """Whether the last checkpoint counts so many events, or bytes of output before those that it holds, that all events are made before a session
    begins. Then an older area that doesn't lead to the newer one is no part of the history."""
    return newer.events >= LOW or newer.output_length - len(newer.held) >= LOW


def has_refused(disk, newer):
    """Of a disk whose journal in use is whole. Raises Unrecovered where that is found out before a session begins."""
    try:
        recover(disk)
    except Unrecovered:
        if is_high(newer):
            raise
        return True
    return False


def fault_of_events(is_wrong, has_older):
    """Where there is an older area that fits, nobody looks which of the two journals it is."""
    return (DIFFERS if has_older else DAMAGED) if is_wrong else None


def makes_events(packet):
    """Whether a packet makes them: a motion does, and a command of `monitor` that isn't mistyped, but for some. No case asks it of an event
    whose line is none."""
    if packet.startswith("qRcmd,"):
        text = bytes.fromhex(packet.partition(",")[2])
        return answer_to(text) is None and text.partition(b" ")[0] not in TELLING
    return packet.startswith("vCont;") or packet in BACK
