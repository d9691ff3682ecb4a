"""What is promised of lists of lives, tested of reports by the plain fold and by what images recover to."""
from model.devices import MemoryDisk
from model.layout import format_disk
from model.ledger import Fold, ledger_of
from model.lives import LifeReport, commands_until_quit
from model.recovery import recover
from model.tables import encode_tables


class Broken(Exception):
    """The promise that a report breaks."""


def promise(is_kept, what):
    if not is_kept:
        raise Broken(what)


def whole_state(machine):
    return encode_tables(machine, b""), bytes(machine.memory.bytes)


def recovered_from(contents):
    """With the offset of the first held byte."""
    found = recover(MemoryDisk(bytearray(contents)))
    return found, found.output_length - len(found.held)


class Lives:
    """The lives so far: the last list of events, each acknowledged beginning, and each released byte by its offset."""

    def __init__(self, image, geometry):
        self.image, self.geometry = image, geometry
        self.before = bytes(format_disk(geometry, image))
        self.events, self.acknowledged, self.released = [], [], {}

    def follow(self, life, report):
        if life.stop_at == 1:
            promise(report == LifeReport(None, 0, 0, b"", self.before), "a life that is stopped at its first call leaves all")
            return
        promise(report.recovered is not None, "a life recovers unless it is stopped at its first call")
        found, offset = recovered_from(self.before)
        promise((report.recovered, report.released_from) == (found.events, offset), "it recovers what was left")
        ledger = ledger_of(self.before)
        ledger.lines_of_output()
        for command in commands_until_quit(life.commands):
            ledger.replies_to(command)
        self.events = self.events[:report.recovered] + ledger.accepted
        self.follow_left(report)
        self.follow_earlier(report)
        if life.stop_at == 0:
            whole = ledger.acknowledged, bytes(ledger.released_bytes)
            promise((report.acknowledged, report.released) == whole, "without a stop all is acknowledged and released")
        self.before = report.left

    def follow_left(self, report):
        """What is left and what was released are of the plain fold."""
        found, offset = recovered_from(report.left)
        promise(report.acknowledged <= found.events <= len(self.events), "what is left holds all that is acknowledged")
        fold = Fold(self.geometry, self.image).over(self.events[:found.events])
        promise(whole_state(found.machine) == whole_state(fold.machine), "what is left is the plain fold's machine")
        promise(bytes(found.held) == bytes(fold.put[offset:]), "held output is the end of the plain fold's")
        promise(found.output_length == len(fold.put), "held output goes to the end of the plain fold's")
        promise(offset <= report.released_from + len(report.released), "nothing is left out between released and held")
        acknowledged = fold.put[:fold.lengths[report.acknowledged]]
        promise(report.released == bytes(acknowledged[report.released_from:]), "released is the acknowledged events' output")

    def follow_earlier(self, report):
        for events in self.acknowledged:
            promise(report.recovered >= len(events), "a later life recovers what was acknowledged")
            promise(self.events[:len(events)] == events, "what was acknowledged begins every later list")
        self.acknowledged.append(self.events[:report.acknowledged])
        for at, byte in enumerate(report.released, report.released_from):
            promise(self.released.setdefault(at, byte) == byte, "a byte that is released again is the same")


def require_promises(image, geometry, listed, reports):
    """Raises Broken."""
    promise(len(reports) == len(listed), "a report of each life")
    kept = Lives(image, geometry)
    for life, report in zip(listed, reports):
        kept.follow(life, report)
