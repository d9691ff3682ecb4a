"""Random guests whose threads do nothing but pass on by atomic operations and by fences of a thread."""
from cases.glances import RacesCase
from cases.histories import drawn_stretches
from cases.sharers import BASE, FENCE_R_R, FENCE_R_RW, FENCE_RW_W, FENCE_W_W, SHARED, TWIN, Passing
from cases.streams import joined
from model.abi import Call
from model.assembler import Jump, Label, Program, call_words, image_of, length_of, load_number
from model.layout import Geometry, format_disk
from model.lines import serve_disk

PLACE = 0xF800
FENCE = 0x0FF0000F  # of a thread
FIRST = 2  # the number of the first thread that is created
OWN = -1000  # where the words begin by which each way passes on
CASES = 10  # so many of the kind meet each rule about memory orders


class Passer(Passing):
    """The first thread creates the others; each goes round its own passes. In two of three the first two begin with each way to pass on.
    `begin` has the turns for that: a thread and a number of steps each."""

    def __init__(self, chance):
        self.chance, self.program = chance, Program()
        self.words = chance.sample(SHARED, chance.choice([1, 2, 2]))
        self.relaxed_stores, self.relaxed_loads = chance.choice([0, 0.5, 1]), chance.choice([0, 0.5, 1])
        self.twin_share = chance.choice([0, 0.3, 0.5])
        self.count = chance.choice([2, 2, 3])
        early, given, taken = self.ways() if chance.random() < 0.67 else ([], [], [])
        names = [f"thread {number}" for number in range(self.count)]
        made = [item for name in names for item in call_words(Call.CREATE, Label(name), 0, 0, 0)]
        self.program.add([*made, *load_number(BASE, PLACE)])
        self.go_round("main", given)
        for name in names:
            self.go_round(name, [*load_number(BASE, PLACE), *([*early, *taken] if name == names[0] else [])])
        place = len(load_number(BASE, PLACE))
        self.begin = [(1, length_of(made) // 4 + place), (FIRST, place + len(early)), (1, len(given) + 1), (FIRST, len(taken) + 1)]
        self.image = image_of(self.program.words())

    def go_round(self, name, before):
        """Now and then something plain lies between passes."""
        self.program.label(name)
        self.program.add(before)
        self.program.label(f"again {name}")
        for _ in range(self.chance.choice([1, 2, 3])):
            self.program.add(self.passing())
            self.program.add(self.plain(self.chance.random() < 0.5) if self.chance.random() < 0.1 else [])
        self.program.add([Jump(f"again {name}")])

    def ways(self):
        """Each with a word and a flag of its own, in any order: what the second thread does before, the first one, and the second one then."""
        ways = [self.way(8 * number + OWN, *how) for number, how in enumerate([
            ([FENCE], FENCE_W_W, FENCE_R_RW, []), ([], FENCE_RW_W, FENCE_R_R, [FENCE]), ([FENCE], FENCE_W_W, FENCE_R_R, [FENCE]),
            ([], FENCE_W_W, FENCE_R_RW, []), ([], FENCE_RW_W, FENCE_R_R, []), ([], FENCE_RW_W, FENCE_R_RW, [])])]
        word, flag = OWN - 8, OWN - 4
        ways.append(([], [*self.placed(True, 2, word), FENCE_RW_W, *self.placed(True, 2, flag), FENCE_W_W, *self.placed(True, 2, flag)],
                     [*self.placed(False, 2, flag), FENCE_R_RW, *self.placed(False, 2, word)]))
        word, flag = OWN - 16, OWN - 12
        ways.append(([], [*self.placed(True, 2, word), *self.placed(False, 2, flag, TWIN)[:-1], FENCE_RW_W, self.placed(True, 2, flag, TWIN)[-1]],
                     [*self.placed(False, 2, flag), FENCE_R_RW, *self.placed(False, 2, word)]))
        word, flag = OWN - 24, OWN - 20
        ways.append(([*self.placed(False, 2, flag), FENCE_R_R], [*self.placed(True, 2, word), FENCE_RW_W, *self.placed(True, 2, flag)],
                     [FENCE, *self.placed(False, 2, word)]))
        self.chance.shuffle(ways)
        return [[word for way in ways for word in way[part]] for part in range(3)]

    def way(self, word, given, fence_of_store, fence_of_load, taken):
        """The flag is the next word."""
        return ([], [*self.placed(True, 2, word), *given, fence_of_store, *self.placed(True, 2, word + 4)],
                [*self.placed(False, 2, word + 4), fence_of_load, *taken, *self.placed(False, 2, word)])


def orders_case(chance, seed):
    """Turns that end anywhere."""
    guest = Passer(chance)
    disk, lengths = format_disk(Geometry(16, 1, 65536), guest.image), chance.choice([[1, 2, 3, 5], [3, 5, 8, 13], [5, 10, 20, 40]])
    turns = [(chance.choice([1, *range(FIRST, FIRST + guest.count)]), chance.choice(lengths)) for _ in range(chance.choice([40, 80]))]
    lines = [line for thread, steps in [*guest.begin, *turns] for line in (b"place 0 %d" % thread, b"run 0 %d" % steps)]
    serve_disk(disk, joined(chance, [*lines, b"commit"]))
    return RacesCase(bytes(disk), drawn_stretches(chance, disk))
