"""Random guests that do what a kit does for itself: take locks by names where no variable is, access words under them, and tell that memory
is given anew."""
from cases.glances import RacesCase
from cases.histories import disk_with_stretches, drawn_stretches
from cases.sharers import SHARED, PartSharer
from cases.streams import joined
from model.abi import Call
from model.assembler import add_immediate, call_words, immediate_form, register_form, store_form, store_word
from model.lines import serve_disk

KIT_LOCKS = [1, 2, 3, 4, 5, 0, 6, 4095]
PROGRAM_LOCKS = [4096, 0x2001, 0x3002, 0x2004]  # no two of these count as one; some do with a kit's, by which nothing is passed on
READ_WRITE_LOCKS = [2, 5, 4095, 0x5001]
LENGTHS = [4, 4, 8, 12, 0, 1, 3, 5, 7, 2000, -1, -4, -2048]  # in bytes; those below 0 reach over the end of the memory
DISTANCES = [0, 0, 0, 4, 4, 8, 1, 2, 3, -1, -4]  # of a shared word from where memory is given anew
FIRST, COUNT, ARGUMENT = 5, 6, 7  # registers that nobody else uses
BEGIN = [line for steps in (50, 20, 40) for line in (b"place 0 1", b"run 0 %d" % steps, b"place 0 3", b"run 0 40")]  # until both have begun
CASES = 6  # so many of the kind meet each rule
IN_PARTS = -512  # a word of which each thread loads a byte before it stores the word and that byte


class Kitted(PartSharer):
    """Each thread begins with what a kit does: an access under a lock that all take, and a word given anew; and with a word in parts. The first
    one comes to these parts once it has made the others."""

    def __init__(self, chance):
        self.kit_share = chance.choice([0.3, 0.6, 0.9])
        self.anew_share = chance.choice([0, 0.1, 0.3])
        self.begin_lock, self.has_operations = chance.choice([1, 2, 3, 4]), False
        super().__init__(chance)

    def add_calls(self, calls):
        """None is skipped, so each thread is made."""
        self.program.add([word for call in calls for word in self.logged(*call)])

    def mutex(self):
        return self.chance.choice(KIT_LOCKS if self.chance.random() < self.kit_share else PROGRAM_LOCKS)

    def lock_operation(self):
        """The first lock is the program's, mostly."""
        second = self.chance.choice(READ_WRITE_LOCKS)
        first = 3 if self.chance.random() < 0.3 else 0x2000
        return [(number, *[{0x2000: first, 0x5001: second, 0x5004: second}.get(address, address) for address in rest])
                for number, *rest in super().lock_operation()]

    def begin(self, name, words):
        """The argument, which handlers put, is kept meanwhile."""
        under = store_word(4, self.chance.choice(SHARED), 3)
        locked = [*call_words(Call.MUTEX_LOCK, self.begin_lock), under, *call_words(Call.MUTEX_UNLOCK, self.begin_lock)]
        parts = [] if name == "main" else self.parts()
        super().begin(name, [*words, add_immediate(ARGUMENT, 10, 0), *parts, *self.one_anew(), *locked, add_immediate(10, ARGUMENT, 0)])

    def add_operations(self, count):
        """The first ones are the first thread's."""
        if not self.has_operations:
            self.program.add(self.parts())
        self.has_operations = True
        super().add_operations(count)

    def parts(self):
        """Where another thread did the same before, the load races with the word's store around the byte's."""
        return [immediate_form(0x03, 0, 4, 3, IN_PARTS + 1), store_word(4, IN_PARTS, 3), store_form(0, 4, IN_PARTS + 1, 3)]

    def one_anew(self):
        offset = self.chance.choice(SHARED)
        return [store_word(4, offset, 3), add_immediate(FIRST, 3, offset), add_immediate(COUNT, 0, 4), register_form(0, 2, 0, FIRST, COUNT)]

    def accesses(self):
        words = super().accesses()
        return words + self.mark() if self.chance.random() < self.anew_share else words

    def mark(self):
        """Or an instruction that is none: of another register, unsigned, or with a number in it."""
        chance = self.chance
        first = add_immediate(FIRST, 0, chance.choice([0, -16, -4, 2047])) if chance.random() < 0.1 else (
            add_immediate(FIRST, 3, max(chance.choice(self.words) - chance.choice(DISTANCES), -2048)))
        others = [register_form(0, 2, 4, FIRST, COUNT), register_form(0, 3, 0, FIRST, COUNT), immediate_form(0x13, 2, 0, FIRST, 8),
                  register_form(0, 2, 0, COUNT, FIRST), register_form(0, 2, 0, 0, FIRST)]
        compare = register_form(0, 2, 0, FIRST, COUNT) if chance.random() < 0.8 else chance.choice(others)
        return [first, add_immediate(COUNT, 0, chance.choice(LENGTHS)), compare]


def kit_case(chance, case, is_plain):
    """A plain one is of a disk that nobody has saved or changed. Of each a stretch is asked for at the guest's begin, and an empty one later."""
    case.lives = [joined(chance, [*BEGIN, *case.lives[0].splitlines()])]
    if not is_plain:
        contents, stretches = disk_with_stretches(chance, case)
    else:
        contents = case.disk()
        serve_disk(contents, joined(chance, [*case.lives[0].splitlines(), b"commit"]))
        stretches = drawn_stretches(chance, contents)
    return RacesCase(bytes(contents), [*stretches, (None, 1), (4, 4)])
