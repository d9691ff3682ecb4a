"""Cases of `ckrt check`: threads that tell of a heap as a kit does, take blocks and give them back, and use them rightly and wrongly."""
import re
from dataclasses import dataclass
from itertools import product

from cases.glances import RacesCase, glance_of_lines, glance_of_program, last_of, names_beside, place_of_difference, recording_of, shown
from cases.histories import drawn_stretches
from cases.nested import Nested, drawn_rows
from cases.streams import joined
from model.abi import Call
from model.assembler import Branch, add_immediate, call_words, immediate_form, load_number, register_form, store_form
from model.checks import Checks
from model.layout import Geometry, format_disk
from model.lines import serve_disk
from model.values import Values

HEAP, SLOTS, SLOT = 0x2800, 21, 32  # where blocks may be, of a slot each
PIECES = 10  # of a thread's round
LOADS, STORES = [2, 2, 0, 1, 4, 5], [2, 2, 0, 1]  # by funct3
BYTES = [1, 4, 5, 6, 7, 12, 13, 20, 28, 28]  # that are asked for
LAST = 1, 3, 10, 1 << 62  # how many of the last events of a stretch are asked for
READINGS = (True, True), (False, False), (True, False), (False, True)  # of what the page leaves open about frees
HEAP_LOCKS = [2, 2, 2, 1, 3, 4, 0x2002]


class Heaped(Nested):
    """Each slot is one thread's, and that one alone takes a block there; any may use it, give it back, or say that it is nobody's."""

    more_threads = 0

    def __init__(self, chance):
        self.taken, self.locked_share = {}, chance.choice([0, 0.1, 0.3])
        self.has_heap, self.ends = chance.random() < 0.9, chance.choice(["exit", "exit", "fault", "thread"])
        self.rounds, self.owner = chance.choice([1, 1, 2, 3]), 0
        super().__init__(chance)

    def add_pieces(self, name):
        """The first thread says first of the whole heap that it is nobody's."""
        if name is None:
            self.program.add([word for word in self.compared(HEAP, SLOT * SLOTS, False)] if self.has_heap else [])
        self.owner, self.taken, again = self.owner + 1, {}, f"again {name}"
        self.program.add(load_number(9, self.rounds))
        self.program.label(again)
        for _ in range(PIECES):
            self.program.add(self.piece())
        if self.rounds > 1:
            self.program.add([word for slot in list(self.taken) for word in self.give_back(slot)])
        self.program.add([add_immediate(9, 9, -1), Branch(1, 9, 0, again), *self.end(name)])

    def end(self, name):
        if name is not None or self.ends == "thread":
            return call_words(Call.THREAD_EXIT, 0)
        return [0x00100073] if self.ends == "fault" else call_words(Call.EXIT, 0)

    def compared(self, first, second, is_given):
        return [*load_number(5, first), *load_number(6, second), register_form(0, 2 if is_given else 3, 0, 5, 6)]

    def slots(self):
        """Those of the thread that is drawn."""
        return range(self.owner % (self.threads + 1), SLOTS, self.threads + 1)

    def address(self, slot):
        return HEAP + SLOT * slot

    def seen(self):
        words = self.chance.choices([self.take, self.used, self.freed, self.left, self.wild], [4, 8, 3, 1.5, 1])[0]()
        if self.chance.random() < self.locked_share:
            lock = self.chance.choice(HEAP_LOCKS)
            return [*call_words(Call.MUTEX_LOCK, lock), *words, *call_words(Call.MUTEX_UNLOCK, lock)]
        return words

    def take(self):
        """Of a free slot of its own: the heap's own word, and behind it as many words as the bytes need."""
        free = [slot for slot in self.slots() if slot not in self.taken]
        if not free:
            return self.used()
        slot, length = self.chance.choice(free), self.chance.choice(BYTES)
        over = -length % 4
        self.taken[slot] = length
        return self.compared(self.address(slot) + over, 4 + length + over, True)

    def give_back(self, slot):
        self.taken.pop(slot, None)
        return self.compared(self.address(slot) + 4, 0, False)

    def any_slot(self):
        """One of its own with a block, mostly."""
        return self.chance.choice(list(self.taken)) if self.taken and self.chance.random() < 0.6 else self.chance.randrange(SLOTS)

    def freed(self):
        """Its begin, mostly."""
        slot = self.any_slot()
        if self.chance.random() < 0.8:
            return self.give_back(slot)
        return self.compared(self.address(slot) + self.chance.choice([0, 1, 2, 5, 8, 12, 28]), 0, False)

    def left(self):
        """A stack whose thread has ended; at times it is given back then, rightly or wrongly."""
        slot = self.any_slot()
        again = self.compared(self.address(slot) + self.chance.choice([4, 5, 8, 8, 12, 16]), 0, False) if self.chance.random() < 0.6 else []
        uses = self.use_of(slot) if self.chance.random() < 0.3 else []
        return [*self.compared(self.address(slot) + 4, 4 * self.chance.choice([1, 3, 7, 7]), False), *uses, *again]

    def used(self):
        return self.use_of(self.any_slot())

    def use_of(self, slot):
        """By any load or store, from the heap's own word on."""
        is_store = self.chance.random() < 0.5
        kind = self.chance.choice(STORES if is_store else LOADS)
        width = 1 << (kind & 3)
        at = self.chance.choice([4, 4, 8, self.chance.randrange(SLOT)]) & -width
        if slot in self.taken and self.chance.random() < 0.3:
            at = 4 + self.taken[slot] - self.chance.choice([0, 1, 2, 4]) & -width
        place = load_number(3, self.address(slot) + at)
        return [*place, store_form(kind, 4, 0, 3) if is_store else immediate_form(0x03, kind, 4, 3, 0)]

    def wild(self):
        """Of memory that isn't the heap's."""
        address = self.chance.choice([HEAP - 4, HEAP - 1, HEAP + SLOT * SLOTS, 0x2000])
        if self.chance.random() < 0.5:
            return self.compared(address, 0, False)
        return [*load_number(3, address), immediate_form(0x03, 4, 4, 3, 0)]


@dataclass
class ChecksCase(RacesCase):
    """With the rows of its names, and how many of the last events are asked for, too; without any rows it has no names."""
    rows: list
    count: int


def checks_case(chance, guest):
    """Most begin with the first thread, up to where it has made the others and said of the heap that it is nobody's."""
    disk = format_disk(Geometry(16, 1, 65536), guest.image)
    turns = [(1, chance.choice([30, 60])), *[(chance.randrange(1, guest.threads + guest.more_threads + 2), chance.choice([5, 20, 60, 150])) for _ in range(chance.choice([40, 80]))]]
    turns += [(1, 3000)] * (chance.random() < 0.6)
    lines = [line for thread, steps in turns for line in (b"place 0 %d" % thread, b"run 0 %d" % steps)]
    serve_disk(disk, joined(chance, [*lines, b"commit"]))
    rows = drawn_rows(chance, len(guest.image)) if chance.random() < 0.7 else []
    return ChecksCase(bytes(disk), drawn_stretches(chance, disk), rows, chance.choice(LAST))


def difference_of_checks(ckrt, case, path, tally):
    """None, or where the two differ on a stretch. The disk's file keeps its bytes."""
    path.write_bytes(case.disk())
    recording, unrecovered = recording_of(case.contents)
    options = names_beside(path, case, case.rows) if case.rows else []
    for stretch, count in product(case.stretches, (None, case.count)):
        words = [*options, *(["--last", str(count)] if count else [])]
        got, expected = glance_of_program(ckrt, "check", path, stretch, *words), []
        for both in both_shown(recording, unrecovered, stretch, count, case.rows):
            expected.append(both)
            if got == both:
                break
        else:
            return f"check (from, to {stretch}, last {count}): {place_of_difference(expected[0], got)}"
        tally["checks", got.fault[6:] if got.status else "shown"] += 1
        tally.update(("line of errors of memory", kind_of_line(line)) for line in got.text.splitlines())
    return None if path.read_bytes() == case.contents else "check changed the disk's bytes"


def both_shown(recording, unrecovered, stretch, count, rows):
    """The errors by each reading, and after them what hangs on values that were never stored; or the fault."""
    values, fault = shown(recording, unrecovered, stretch, Values(rows))
    if fault:
        yield fault
        return
    ends = last_of(recording, stretch, count) if count else recording.ends(*stretch)
    values = recording.show(Values(rows), *ends) if count else values
    for reading in READINGS:
        yield glance_of_lines(recording.show(Checks(rows, *reading), *ends).lines() + values.lines())


def kind_of_line(line):
    """What is done, and what is wrong with it; or the first words of another line."""
    done = re.fullmatch(r"\d+\+\d+ thread \d+ (\w+)(?: [0-9a-f]+)? pc \w+ (.*), (once|\d+ times)", line)
    others = r" *(?:\d+\+\d+ thread \d+ )?(called|ended|given back|in a block(?: that was taken)?|in a frame|and|no errors|never|events)\b.*"
    return f"{done[1]} {done[2]}" if done else re.sub(others, r"\1", line)
