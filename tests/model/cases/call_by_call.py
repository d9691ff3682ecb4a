"""Lines that lead the threads of the record guest call by call, made together with the model.

The model runs along while the lines are made: so the next call can depend on who waits for what.
"""
from cases.choices import RETURN_TO_X1, Chooser, flavours
from cases.record_guest import (DUMP_STEPS, LABELS, STEPS_TO_CALL, STEPS_TO_TOP, image_with, next_record, write_record)
from cases.streams import with_long_runs
from model.abi import ALL_ONES, RETURN_GATE, UNWIND_GATE, Call
from model.devices import MemoryDisk
from model.layout import Geometry, format_disk
from model.lines import parse, run_command
from model.session import Session
from model.switches import SWITCHES
from model.threads import THREAD_IDS

PRINTER = 2  # the id of the printing thread
TOP, BEHIND_CALL = LABELS["top"], LABELS["behind the call"]
LENGTHS = {"many mutexes": 420, "many locks": 250, "many barriers": 220, "many threads": 130, "many handlers": 120,
           "many keys": 150}


class Script:
    """`lines` for the guest `image`; a flavour says which calls are mixed. The disk may be of an older version."""

    def __init__(self, chance, flavour, length=None, version=None):
        self.chance, self.flavour = chance, flavour
        self.geometry = Geometry(16, chance.choice([1, 2, 3, 8]), 1 << 20)
        self.records, self.lines, self.idle_turns = [], [], 0
        self.session = Session(MemoryDisk(format_disk(self.geometry, image_with([]), version)))
        self.machine = self.session.machine
        self.chooser = Chooser(chance, self.machine, flavour)
        self.begin()
        for _ in range(length or LENGTHS.get(flavour) or chance.choice([40, 100, 200])):
            if self.idle_turns > 4 or (not self.machine.is_running and chance.random() < 0.7):
                break
            self.turn()
        self.finish()
        self.image = image_with(self.records)

    def line(self, text):
        """Feeds a line to the model too; commits before the batch or the held output grows full."""
        if len(self.session.pending) > 3900 or len(self.session.held) > 12000:
            self.lines.append(b"commit")
            run_command(self.session, parse(b"commit"))
        if SWITCHES.long_runs and (self.session.recovered.version > 1 or self.chance.random() < 0.02):
            text = with_long_runs(self.chance, [text])[0]
        self.lines.append(text)
        run_command(self.session, parse(text))

    def make(self, hart, thread_id, call):
        """The thread, which stands on the hart at the top, makes the call; mostly it then goes back to the top."""
        record = tuple(word & ALL_ONES for word in call) + (0,) * (6 - len(call))
        index = next_record(self.machine)
        self.records += [(0,) * 6] * (index + 1 - len(self.records))
        self.records[index] = record
        write_record(self.machine, index, record)
        self.line(b"run %d %d" % (hart, STEPS_TO_CALL))
        is_behind = self.machine.harts[hart] == thread_id and self.machine.threads[thread_id].pc == BEHIND_CALL
        if is_behind and self.chance.random() < 0.9:
            self.line(b"run %d %d" % (hart, STEPS_TO_TOP))

    def begin(self):
        """The printing thread is made first, then some that take records. Where threads end, id 2 soon ends too."""
        self.line(b"place 0 1")
        printer = LABELS["five more" if self.flavour == "ends" else "dump"]
        self.make(0, 1, (Call.CREATE, printer, 0, 0, 0))
        for _ in range(6 if self.flavour == "timed" else self.chance.choice([2, 3, 4])):
            self.go_to_top(0, 1)
            self.make(0, 1, (Call.CREATE, TOP, 7, 0x8000, 0))

    def go_to_top(self, hart, thread_id):
        """Runs the thread step by step; False where it doesn't reach the top soon, or would end the program."""
        for _ in range(6):
            if not self.machine.is_running or self.machine.harts[hart] != thread_id:
                return False
            thread = self.machine.threads[thread_id]
            if thread.pc == TOP:
                return True
            if self.is_end_of_program(thread) and self.chance.random() < (0.7 if self.flavour == "gates" else 0.8):
                return False
            self.line(b"run %d %d" % (hart, STEPS_TO_TOP if thread.pc == BEHIND_CALL else 1))
        return False

    def is_end_of_program(self, thread):
        """At a gate, the initial thread's return ends the process, and a thread that doesn't unwind faults."""
        if thread.pc == UNWIND_GATE:
            return not thread.is_unwinding
        return thread.pc == RETURN_GATE and thread.is_initial

    def event_line(self):
        """A line that is no run of a thread."""
        chance = self.chance
        placed = b"place %d %d" % (chance.randrange(8), chance.randrange(1, 10))
        data = b"%02x" % chance.randrange(256) * chance.choice([1, 1, 2, 3, 64 if chance.random() < 0.2 else 1])
        timed = self.flavour == "timed"
        tick = b"tick %d" % chance.choice([1, 6, 8, 10] if timed else [1, 1, 2, 3, 5])
        run = b"tick 1" if PRINTER in self.machine.harts else b"run %d %d" % (chance.randrange(8), chance.choice([1, 2]))
        options = [tick, b"in " + data, b"eof", b"commit", placed, run]
        return chance.choices(options, [6 if timed else 5, 2.5, 0.15, 1.35, 1, 1])[0]

    def ready_threads(self):
        threads = [number for number in self.machine.threads if self.machine.is_ready(number)]
        return [number for number in threads if number != PRINTER or self.flavour == "ends"]

    def turn(self):
        """One event of another kind, or a ready thread is put on a hart and makes a few calls."""
        if self.chance.random() < 0.11:
            self.line(self.event_line())
            return
        ready = self.ready_threads()
        if not ready or not self.machine.is_running:
            self.idle_turns += 1
            self.line(b"tick 5")
            self.line(self.chance.choice([b"in 41", b"tick 1"]))
            return
        thread_id = self.chance.choice(ready)
        if thread_id in self.machine.harts:
            hart = self.machine.harts.index(thread_id)
        else:
            hart = self.chance.randrange(self.geometry.harts)
            self.line(b"place %d %d" % (hart, thread_id))
        for _ in range(self.chance.choice([1, 1, 2, 4])):
            if not self.go_to_top(hart, thread_id):
                return
            self.make(hart, thread_id, self.next_call(thread_id))

    def next_call(self, thread_id):
        """A return of the initial thread would end the process: mostly another call takes its place."""
        call = self.chooser.call_for(thread_id, is_alone=len(self.ready_threads()) == 1)
        thread = self.machine.threads[thread_id]
        ends_process = call == RETURN_TO_X1 and thread.is_initial and thread.registers[1] == RETURN_GATE
        if ends_process and self.chance.random() < (0.7 if self.flavour == "gates" else 0.9):
            return (Call.SELF,)
        return call

    def finish(self):
        """Asks by `place` which threads are ready, before and after a tick, and has the records printed."""
        last = min(THREAD_IDS[-1], max(self.machine.threads, default=1) + 2)
        for between in (b"tick 100", b"place 0 %d" % PRINTER):
            for number in range(1, last + 1):
                self.line(b"place 0 %d" % number)
            self.line(between)
        steps = len(self.records) * DUMP_STEPS + 50
        for _ in range(len(self.records) * 4 // 1000 + 2):
            self.line(b"run 0 %d" % steps)
            self.line(b"commit")


def flavour_of(seed):
    return list(flavours())[seed % len(flavours())]
