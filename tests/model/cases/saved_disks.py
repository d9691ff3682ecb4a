"""Disks that hold saved states: made by the model's own runs, checkpoints and stops, or by changing what they saved.

The program need not take checkpoints itself to be compared on these: it recovers them, and goes on with the lines that
are left.
"""
import struct

from cases.changes import Saved, change, damaged_bytes
from cases.crowds import crowded
from cases.damage import batch
from cases.streams import joined
from model.devices import MemoryDisk, StoppingDisk, filled
from model.events import Place, Run, RunLong, Tick
from model.layout import (CLOSED, COUNTERS, HEADER_AT, LAST_GENERATION, OPEN, TABLES_LIMIT, Header, header_of, write_gate)
from model.lines import LineFault, parse, run_command, serve_disk
from model.recovery import Unrecovered, pick_area, read_area, read_superblock, tables_of
from model.session import Session
from model.switches import SWITCHES
from model.tables import encode_tables

FILLS = [b"", b"\xa5", b"\x00", b"\xff", b"\xa5\x00"]
ASKS = [b"commit", b"tick 1", b"auto 0 30", b"in 41", b"auto 0 200", b"commit", b"auto 0 9", b"tick 4294967295", b"auto 0 99"]


def with_checkpoints(chance, lines, share):
    """The lines, with a checkpoint behind some of them."""
    fed = []
    for line in lines:
        fed += [line, b"checkpoint"] if chance.random() < share else [line]
    return fed


def serve_and_save(chance, disk, lines):
    """Serves the lines on the disk, with checkpoints among them and one behind them, and at times a few events more.

    At times without commits, so that the area saves more held output.
    """
    if chance.random() < 0.5:
        lines = [line for line in lines if line != b"commit"]
    fed = with_checkpoints(chance, lines, chance.choice([0, 0, 0.02, 0.1])) + [b"checkpoint"]
    if chance.random() < 0.3:
        fed += [b"tick 1", b"auto 0 9", b"commit", b"auto 0 40", chance.choice([b"commit", b"tick 2"])]
    serve_disk(disk, joined(chance, fed))


def asks(chance, harts):
    """Which threads are ready; then some steps for each that is."""
    placed = [b"place %d %d" % (number % harts, number) for number in [*range(1, 8), *chance.sample(range(8, 65), 12)]]
    return placed + ASKS + placed + [b"auto %d 50" % (harts - 1)] * 12 + [b"checkpoint"]


class ChangedArea:
    """Changes of what the area in use saves, or of its header."""

    def __init__(self, chance, disk):
        self.chance, self.device = chance, MemoryDisk(disk)
        self.geometry = read_superblock(self.device)
        self.area = pick_area(self.device, self.geometry)

    def damage(self):
        """Most leave nothing that recovery takes."""
        kinds = {self.change_state: 10, self.change_bytes: 2, self.change_header: 2, self.change_other_area: 1,
                 self.change_journal: 1}
        for kind in self.chance.choices(list(kinds), kinds.values(), k=self.chance.choice([1, 1, 1, 2])):
            kind()

    def crowd(self):
        """A crowd in the place of the state; its journal is emptied."""
        found = read_area(self.device, self.geometry)
        state = crowded(self.chance, found.machine, found.held, self.geometry.harts)
        self.write_tables(self.encoded(state, found.held))
        write_gate(self.device, self.geometry.journal_at(self.area), CLOSED)

    def header(self):
        return header_of(self.device, self.geometry, self.area)

    def write_header(self, **fields):
        header = Header(**{**vars(self.header()), **fields})
        self.device.write(self.geometry.area_at(self.area) + HEADER_AT, header.encoding())

    def encoded(self, state, held):
        """Of the area's version."""
        return encode_tables(state, held, self.header().version)

    def write_tables(self, tables):
        self.device.write(self.geometry.tables_at(self.area), tables)
        self.write_header(tables_length=len(tables))

    def change_state(self):
        """Changes that no record has room for are dropped."""
        try:
            found = read_area(self.device, self.geometry)
            saved = Saved(found.machine, found.held)
            for _ in range(self.chance.choice([1, 1, 1, 2, 4])):
                change(self.chance, saved)
            self.write_tables(self.encoded(saved.state, saved.held))
        except (Unrecovered, struct.error, ValueError):
            pass

    def change_bytes(self):
        self.write_tables(damaged_bytes(self.chance, tables_of(self.device, self.geometry, self.area)))

    def change_header(self):
        chance, header = self.chance, self.header()
        field = chance.choice(["generation", "events", "offset", "tables_length", "version"])
        values = {"generation": [0, 1, header.generation + 1, LAST_GENERATION - 1, LAST_GENERATION],
                  "events": [0, COUNTERS - 1, COUNTERS - 2, COUNTERS - 4, COUNTERS, 1 << 63],
                  "offset": [0, COUNTERS - 1, COUNTERS - 1024, COUNTERS - 1025, COUNTERS - 2000, COUNTERS, 1 << 63],
                  "tables_length": [header.tables_length + 1, header.tables_length - 1, 0, TABLES_LIMIT, TABLES_LIMIT + 1],
                  "version": [0, 1, 2, 3, 1 << 31]}
        self.write_header(**{field: chance.choice(values[field])})

    def change_other_area(self):
        """Its gate, and its generation beside that of the area in use."""
        chance, at = self.chance, self.geometry.area_at(1 - self.area)
        write_gate(self.device, at, chance.choice([CLOSED, OPEN, OPEN, OPEN - 1]))
        generation = self.header().generation + chance.choice([-1, 0, 1])
        self.device.write(at + HEADER_AT, struct.pack("<Q", max(generation, 0)))

    def change_journal(self):
        """One more batch at the front of the journal in use."""
        chance = self.chance
        events = [Place(0, chance.randrange(1, 4)), Run(0, chance.randrange(1, 30)), Tick(1), Tick(4294967295)]
        if SWITCHES.long_runs:
            events += [RunLong(0, chance.randrange(1, 30)), Place(0, 1)]
        chosen = b"".join(event.encoding() for event in chance.choices(events, k=chance.choice([1, 2, 3])))
        self.device.write(self.geometry.journal_at(self.area), batch(chosen))


def torn(chance):
    """Runs of old, new and other bytes."""
    def leave(offsets, old, new):
        left = bytearray()
        while len(left) < len(offsets):
            length = min(chance.choice([1, 1, 7, 100, 4096]), len(offsets) - len(left))
            run = slice(len(left), len(left) + length)
            left += chance.choice([old[run], new[run], new[run], chance.randbytes(length)])
        return left
    return leave


def run_lines(session, lines):
    """Runs lines up to the one at which the disk fails; answers how many were run."""
    for number, line in enumerate(lines):
        try:
            run_command(session, parse(line))
        except LineFault:
            continue
        if session.has_failed:
            return number + 1
    return len(lines)


def stopped_disk(chance, disk, lines):
    """What a stop at some write or sync of a commit or checkpoint leaves, and the lines that are left then."""
    fed = with_checkpoints(chance, lines, chance.choice([0.02, 0.1, 0.3])) + [b"commit", b"checkpoint"]
    whole = StoppingDisk(disk, 0)
    run_lines(Session(whole), fed)
    last = chance.choice([whole.calls, min(whole.calls, 60)])
    stopping = StoppingDisk(disk, chance.randrange(2, last + 1), chance.choice([torn(chance), filled(chance.choice(FILLS))]))
    done = run_lines(Session(stopping), fed)
    return stopping.bytes, fed[max(0, done - chance.choice([0, 1, 6])):]
