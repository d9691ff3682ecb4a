"""Cases of `ckrt races` with names that tell callers: threads whose registers and stacks have addresses of code and of frames, and rows `up` for some of
that code."""
from dataclasses import dataclass, field

from cases.glances import RacesCase
from cases.histories import drawn_stretches
from cases.streams import joined
from model.abi import Call
from model.assembler import START, Label, Program, call_words, image_of, immediate_form, load_number, register_form, store_word
from model.callers import Up
from model.layout import Geometry, format_disk
from model.lines import serve_disk

SHARED, STACK = 0x2800, range(0x3000, 0x3100, 4)
OFFSETS = [0, 4, 8, 8, 16, 32, 2**31 - 1]
PIECES = 12  # of a thread
ODD = [0, 4, START - 4, START, START + 4, 0x0FFFC, 0x10000, 0x10004, 0xFFFFFFFC]
ZONE = 64  # bytes of code: every other zone has no calls, and there the return address may be in its register


class Nested:
    """Each piece of a thread sets the registers of a frame, at times puts some words into a stack, and accesses a shared word or has it given anew."""

    def __init__(self, chance):
        self.chance, self.program = chance, Program()
        self.odd_share = chance.choice([0, 0.05, 0.2])
        self.threads = chance.choice([2, 3])
        names = [f"thread {number}" for number in range(self.threads)]
        for name in names:
            self.program.add(call_words(Call.CREATE, Label(name), 0, 0, 0))
        for name in [None, *names]:
            if name:
                self.program.label(name)
            self.add_pieces(name)
        self.image = image_of(self.program.words())

    def add_pieces(self, name):
        """Those of a thread."""
        for _ in range(PIECES):
            self.program.add(self.piece())
        self.program.add(call_words(Call.THREAD_EXIT, 0))

    def code(self):
        """Behind a call, mostly."""
        if self.chance.random() < self.odd_share:
            return self.chance.choice(ODD)
        return START + 2 * ZONE * self.chance.randrange(6 * self.threads) + 4 * self.chance.randint(1, ZONE // 4)

    def frame(self):
        return self.chance.choice(ODD) if self.chance.random() < self.odd_share else self.chance.choice(STACK)

    def piece(self):
        chance, words = self.chance, []
        for register, value in ((1, self.code()), (2, self.frame()), (8, self.frame())):
            words += load_number(register, value) if chance.random() < 0.6 else []
        for _ in range(chance.choice([0, 2, 4])):
            words += [*load_number(3, chance.choice(STACK)), *load_number(4, chance.choice([self.code, self.code, self.frame])()), store_word(4, 0, 3)]
        return words + self.seen()

    def seen(self):
        """What is told with its callers."""
        chance, words = self.chance, load_number(3, SHARED + 4 * self.chance.randrange(3))
        if chance.random() < 0.15:
            return [*words, *load_number(5, SHARED - 4 * chance.choice([0, 1, 1, 2])), *load_number(6, chance.choice([4, 8, 16])), register_form(0, 2, 0, 5, 6)]
        return [*words, store_word(4, 0, 3) if chance.random() < 0.5 else immediate_form(0x03, 2, 4, 3, 0)]


def drawn_rows(chance, length):
    """For the code of an image, with gaps between."""
    rows, at = [], START
    while at < START + length:
        size, has_row = min(4 * chance.choice([1, 5, 16]), ZONE - at % ZONE), chance.random() < 0.85
        back, frame = chance.choice([None] * (4 * (at // ZONE % 2)) + [4, 4, 8, 12]), chance.choice([None, None, 8, 12, 16])
        rows += [Up(at, size, chance.choice([2, 2, 8]), chance.choice(OFFSETS[:6] * 9 + OFFSETS), back, frame)] if has_row else []
        at += size
    return rows


@dataclass
class NestedCase(RacesCase):
    """With the rows of its names."""
    rows: list = field(default_factory=list)


def nested_case(chance, seed):
    guest = Nested(chance)
    disk = format_disk(Geometry(16, 1, 65536), guest.image)
    turns = [(1, 50), *[(chance.randrange(1, guest.threads + 2), chance.choice([5, 20, 60])) for _ in range(40)]]
    lines = [line for thread, steps in turns for line in (b"place 0 %d" % thread, b"run 0 %d" % steps)]
    serve_disk(disk, joined(chance, [*lines, b"commit"]))
    return NestedCase(bytes(disk), drawn_stretches(chance, disk), drawn_rows(chance, len(guest.image)))
