"""Guests of `ckrt check` that use values that were never stored: threads that make frames and take blocks, and let branches, addresses and calls hang
on what they load from there."""
from dataclasses import dataclass

from cases.heaped import BYTES, HEAP, HEAP_LOCKS, SLOT, SLOTS, Heaped, checks_case
from cases.nested import ZONE
from model.abi import RETURN_GATE, Call
from model.assembler import (START, Branch, Label, LoadLabel, add_immediate, branch_form, call_words, immediate_form, jump_register, load_number,
                             load_upper, register_form, store_form)
from model.processor import ECALL

WORDS = range(0x3000, 0x3020, 4)  # of frames, which are used most
BESIDE_WORDS = 0x3024  # where no address of odd code comes
MEMORY = range(START, 0x10000)
BEYOND = [(0xFF8, 3), (0xFFFC, 4), (0x10000, 2), (0xFFFFFFF8, 0x800)]  # the first one of words that memory doesn't have, or not all, and how many
OF_JUMPS = 0x3200  # a word of each thread: no other one stores there
POOL = [5, 6, 7, 12, 13, 14, 15, 18, 20]  # registers that are computed with
NUMBERS = [0, 0, 1, 0x41, 0x4100, 0x410041, 0x41004141, 0x00414243, 0x80000000, 0x7FFFFFFF, -1, -256]
OPERATIONS = [(0, 0), (32, 0), (0, 1), (0, 2), (0, 3), (0, 4), (0, 5), (32, 5), (0, 6), (0, 7)]  # by funct7 and funct3
CONSTANTS = [0, 1, -1, 4, 8, 15, 16, 255, 256, -256, 2047, -2048]
NO_INSTRUCTIONS = [branch_form(2, 5, 5, 4), immediate_form(0x67, 1, 0, 5, 0), immediate_form(0x03, 3, 6, 5, 0), store_form(3, 5, 0, 5)]
NOTHING, AUIPC = add_immediate(0, 0, 0), 0x00003117  # the latter to the stack pointer
ROOM = HEAP - START - 1700  # bytes of code: what comes after the pieces of threads has the rest
# Calls that neither end nor wait, mostly, whatever they take.
CALLS = [2, 2, 2, 4, 5, 10, 11, 12, 14, 20, 21, 23, 24, 25, 30, 31, 33, 34, 35, 40, 41, 50, 51, 53, 55, 56, 60, 61, 62, 64, 65, 70, 71, 72, 73, 99]
WORST = [1, 3, 13, 22, 32, 42, 52, 54, 63]  # these may end or wait


@dataclass(frozen=True)
class Mark:
    """A label among the words of a piece."""
    name: str


def shown_beside(kind, offset):
    """Whether bits of what is loaded so far from the address in register 3 are unknown, where none of the others is a 1."""
    return [immediate_form(0x03, kind, 5, 3, offset), branch_form(6, 0, 5, 4)]


class Unstored(Heaped):
    """Beside the pieces of a heap it has those of values; how many of them, and how many odd ones, is drawn for each guest."""

    more_threads = 2  # that may be there, too, and are run

    def __init__(self, chance):
        self.share, self.marks, self.is_at_gates = chance.choice([0.4, 0.7, 0.9]), 0, False
        self.many_share, self.odd_share_of_values = chance.choice([0, 0, 0, 0.05]), chance.choice([0, 0.05, 0.15])
        super().__init__(chance)

    def add_pieces(self, name):
        super().add_pieces(name)
        if not self.is_at_gates:
            self.is_at_gates = True
            self.add_routines()

    def end(self, name):
        """The first thread leaves the others to go on, at times."""
        return call_words(Call.THREAD_EXIT, 0) if name is None and self.chance.random() < 0.4 else super().end(name)

    def add_routines(self):
        """A thread that looks at registers that it never set, and leaves values in them; and a handler that does the same. At times the thread stores into
        a block that the last thread of its number may have been given."""
        self.program.label("short")
        stores, gives = self.of_number() if self.chance.random() < 0.5 else ([], [])
        returns = [] if gives else [[*load_number(1, RETURN_GATE), jump_register(0, 1, 0)]]
        ends = self.chance.choice([call_words(Call.THREAD_EXIT, 0), *returns])
        self.program.add([*self.looked_at(), *stores, *self.left_over(), *gives, *ends])
        self.program.label("handler")
        self.program.add([*self.looked_at(), *self.left_over(), *load_number(1, 0xFFFFFFF4), jump_register(0, 1, 0)])

    def of_number(self):
        """Looks after a store into the slot that each number of a thread has, and gives a block there; what was there is given back before."""
        own = [*call_words(Call.SELF), immediate_form(0x13, 1, 3, 10, 5), *load_number(4, HEAP + SLOT * SLOTS), register_form(0, 0, 3, 3, 4)]
        stores = [*own, store_form(2, 0, 4, 3), immediate_form(0x03, 2, 5, 3, 4), branch_form(6, 0, 5, 4)]
        return stores, [*own, add_immediate(5, 3, 4), register_form(0, 3, 0, 5, 0), *load_number(6, 12), register_form(0, 2, 0, 3, 6)]

    def taken_again(self):
        """A thread that is waited for, and another one, which takes its number."""
        create = call_words(Call.CREATE, Label("short"), 0, 0, 0)
        return [*create, add_immediate(10, 11, 0), *load_number(17, Call.JOIN), ECALL, *create]

    def looked_at(self):
        registers = [1, 10, 11, *self.chance.sample(POOL, 2)]
        return [branch_form(self.chance.choice([0, 1, 6]), register, 0, 4) for register in self.chance.sample(registers, 4)]

    def left_over(self):
        loads = [immediate_form(0x03, 2, register, 2, 0) for register in [1, 10, 11, *self.chance.sample(POOL, 3)]]
        return [*load_number(2, BESIDE_WORDS + 4), NOTHING, add_immediate(2, 2, -4), *loads]

    def piece(self):
        """Up to the last label it is added already. Since the address may come to a stack, it stands where a call may be before it."""
        words = []
        for item in super().piece():
            if isinstance(item, Mark):
                self.program.add(words)
                while (self.program.end - 4 - START) % (2 * ZONE) >= ZONE:
                    self.program.add([NOTHING])
                self.program.label(item.name)
                words = []
            else:
                words.append(item)
        return words

    def seen(self):
        if self.program.end - START > ROOM or self.chance.random() >= self.share:
            return super().seen()
        kinds = [self.lowered, self.stored, self.loaded, self.computed, self.branched, self.by_address, self.called, self.filled, self.decided, self.resulted,
                 self.taken_again]
        words = self.chance.choices(kinds, [3, 3, 3, 2, 2, 2, 2, 3, 4, 8, 1])[0]()
        words = self.odd() if self.chance.random() < self.odd_share_of_values else words
        words = self.many() if self.chance.random() < self.many_share else words
        if self.chance.random() < self.locked_share:
            lock = self.chance.choice(HEAP_LOCKS)
            return [*call_words(Call.MUTEX_LOCK, lock), *words, *call_words(Call.MUTEX_UNLOCK, lock)]
        return words

    def register(self):
        return self.chance.choice(POOL)

    def label(self):
        self.marks += 1
        return f"mark {self.marks}"

    def lowered(self):
        """A stack pointer that is lowered to one of the words, or raised, in each way."""
        chance, length = self.chance, self.chance.choice([4, 4, 8, 16, 16, 32])
        new = chance.choice(WORDS)
        odd = chance.choice([0, 0, 1, 2, 3])
        length += chance.choice([0, 1, 2, 3]) if odd else 0
        lower = chance.choice([
            [add_immediate(2, 2, -length)], [add_immediate(2, 2, -length)], [*load_number(7, length), register_form(32, 0, 2, 2, 7)],
            [*load_number(7, -length), register_form(0, 0, 2, 2, 7)], [*load_number(7, -length), register_form(0, 0, 2, 7, 2)],
            [immediate_form(0x13, 7, 2, 2, -length)], [add_immediate(2, 2, length)],
            [add_immediate(2, 2, -length), add_immediate(2, 2, -4)], [add_immediate(7, 2, -length), add_immediate(2, 7, 0)]])
        between = chance.choice([[NOTHING], [NOTHING], [], call_words(Call.SELF)])
        last = new + odd + length & -4
        shown = [*self.shown(new + 4 * chance.choice([-1, 0, 0, 1])), *([*self.shown(last - 4), *self.shown(last)] if odd else [])]
        return [*load_number(2, new + odd + length), *between, *lower, *shown]

    def shown(self, at):
        """Whether the word's bits are unknown, but for those that a known 1 is above."""
        return [*load_number(3, at), *shown_beside(2, 0)]

    def place(self, width):
        """Of a byte in one of the words, or of a block."""
        at = self.chance.choice(WORDS) if self.chance.random() < 0.7 else self.address(self.any_slot()) + 4 * self.chance.randrange(1, 4)
        return at + self.chance.randrange(4) & -width

    def stored(self):
        """What is known, mostly; or what a register has."""
        kind = self.chance.choice([0, 0, 1, 2])
        number = load_number(4, self.chance.choice(NUMBERS)) if self.chance.random() < 0.6 else []
        return [*number, *load_number(3, self.place(1 << kind)), store_form(kind, 4 if number else self.register(), 0, 3)]

    def loaded(self):
        kind = self.chance.choice([0, 1, 2, 2, 2, 4, 5])
        return [*load_number(3, self.place(1 << (kind & 3))), immediate_form(0x03, kind, self.register(), 3, 0)]

    def computed(self):
        """Some operations one after the other."""
        return [word for _ in range(self.chance.choice([1, 2, 4])) for word in [self.operation(), *(self.loaded() if self.chance.random() < 0.3 else [])]]

    def operation(self):
        chance = self.chance
        funct7, funct3 = chance.choice(OPERATIONS)
        if chance.random() < 0.5:
            return register_form(funct7, funct3, self.register(), self.register(), chance.choice([*POOL, 0]))
        if funct3 in (1, 5):
            return immediate_form(0x13, funct3, self.register(), self.register(), funct7 << 5 | chance.choice([0, 1, 7, 8, 16, 24, 31]))
        return immediate_form(0x13, funct3, self.register(), self.register(), chance.choice(CONSTANTS))

    def branched(self):
        """Beyond an operation."""
        left, right = self.register(), self.chance.choice([*POOL, 0, 0, 0])
        left, right = (left, right) if self.chance.random() < 0.7 else (right, left)
        return [*(self.loaded() if self.chance.random() < 0.5 else []), branch_form(self.chance.choice([0, 0, 1, 1, 4, 5, 6, 7]), left, right, 8), self.operation()]

    def decided(self):
        """Two words with few unknown bytes are compared: their known ones are equal, or nearly, and often 0."""
        chance, pair = self.chance, sorted(self.chance.sample(WORDS, 2))
        number = chance.choice(NUMBERS)
        words = [word for at in pair for word in [*load_number(3, at), *load_number(4, chance.choice([number, number, number + 1, number - 256])), store_form(2, 4, 0, 3)]]
        words += [word for at in pair for word in self.framed(at, chance.choice([0, 1, 1, 2]))] if chance.random() < 0.7 else []
        words += [word for at, register in zip(pair, (5, 6)) for word in [*load_number(3, at), immediate_form(0x03, 2, register, 3, 0)]]
        compared = [branch_form(chance.choice([0, 1, 4, 5, 6, 7]), *chance.choice([(5, 6), (6, 5), (5, 0), (0, 6)]), 4),
                    register_form(0, chance.choice([2, 3]), 7, *chance.choice([(5, 6), (6, 5), (5, 0)])), branch_form(chance.choice([0, 1]), 7, 0, 4)]
        return words + compared

    def resulted(self):
        """An operation of two words with some unknown bits, by constants too, and whether some bits of its result are unknown: each is shifted to where
        a comparison hangs on it alone."""
        chance, pair, words = self.chance, self.chance.sample(WORDS, 2), []
        for at, register in zip(pair, (5, 6)):
            words += [*load_number(3, at), *load_number(4, chance.choice([*NUMBERS, chance.getrandbits(32), 3, 12])), store_form(2, 4, 0, 3)]
            words += self.framed(at, chance.choice([0, 1, 2, 2, 3]))
            kind = chance.choice([2, 2, 2, 0, 1, 4, 5])
            words += [*load_number(3, at + chance.randrange(0, 4, 1 << (kind & 3))), immediate_form(0x03, kind, register, 3, 0)]
            words += [immediate_form(0x13, chance.choice([1, 5]), register, register, chance.choice([1, 3, 5, 8]))] if chance.random() < 0.3 else []
        funct7, funct3 = chance.choice(OPERATIONS)
        made = register_form(funct7, funct3, 7, *chance.choice([(5, 6), (5, 6), (6, 5), (5, 5)]))
        if chance.random() < 0.3 and (funct7, funct3) != (32, 0):
            made = immediate_form(0x13, funct3, 7, 5, funct7 << 5 | chance.choice([0, 1, 4, 8, 31]) if funct3 in (1, 5) else chance.choice(CONSTANTS))
        bits = [chance.choice([0, 1, 7, 8, 15, 16, 24, 31, chance.randrange(32)]) for _ in range(chance.choice([2, 3, 5]))]
        return [*words, made, *(word for bit in bits for word in [immediate_form(0x13, 1, 19, 7, 31 - bit), branch_form(4, 19, 0, 4)])]

    def framed(self, at, count):
        """So many bytes of a word are unknown, the others stay what they are known to be: the word is loaded before it is a frame's."""
        chance, words = self.chance, [*load_number(3, at), immediate_form(0x03, 2, 16, 3, 0), *load_number(2, at + 4), NOTHING, add_immediate(2, 2, -4)]
        known = sorted(chance.sample(range(4), 4 - count))
        for byte in known:
            words += [immediate_form(0x13, 5, 19, 16, 8 * byte), store_form(0, 19, byte, 3)]
        return words

    def unknown(self, register, number):
        """Such a number in a register, of which most bits are unknown: it is stored to a word that is a frame's then, or to a block that is being given."""
        known = load_number(4, number)
        slot = self.chance.choice(self.free_slots() or [None]) if self.chance.random() < 0.4 else None
        at = self.chance.choice(WORDS) if slot is None else self.address(slot) + 4
        store, load = [*known, *load_number(3, at), store_form(2, 4, 0, 3)], [*load_number(3, at), immediate_form(0x03, 2, register, 3, 0)]
        return [*store, *load_number(2, at + 4), NOTHING, add_immediate(2, 2, -4), *load] if slot is None else [*self.taken_at(slot, 5), *store, *load]

    def free_slots(self):
        return [slot for slot in self.slots() if slot not in self.taken]

    def taken_at(self, slot, length):
        over = -length % 4
        self.taken[slot] = length
        return self.compared(self.address(slot) + over, 4 + length + over, True)

    def by_address(self):
        chance, kind = self.chance, self.chance.choice([0, 2, 2])
        address = self.place(4) if chance.random() < 0.98 else chance.choice([0, 2, 0x10000, self.place(1)])
        if chance.random() < 0.3:
            mark = self.label()
            at, known = OF_JUMPS + 4 * self.owner, [LoadLabel(4, mark)]
            word = [*known, *load_number(3, at), store_form(2, 4, 0, 3), *load_number(2, at + 4), NOTHING, add_immediate(2, 2, -4), immediate_form(0x03, 2, 5, 3, 0)]
            return [*word, jump_register(chance.choice([0, 0, 5, 7]), 5, 0), self.operation(), Mark(mark)]
        used = store_form(kind, self.register(), 0, 5) if chance.random() < 0.5 else immediate_form(0x03, kind, self.register(), 5, 0)
        return [*self.unknown(5, address), used]

    def called(self):
        """Some arguments are unknown ones."""
        chance, words = self.chance, []
        number = chance.choice(CALLS) if chance.random() < 0.95 else chance.choice(WORST)
        words += self.unknown_return() if chance.random() < 0.4 else []
        for register in (10, 11, 12, 13):
            argument = chance.choice([0, 1, 2, 3, 0x2002, 0x41])
            words += self.unknown(register, argument) if chance.random() < 0.4 else load_number(register, argument)
            words += [immediate_form(0x13, 1, register, register, 8)] if chance.random() < 0.1 else []
        words += self.unknown(17, number) if chance.random() < 0.1 else load_number(17, number)
        return [*words, ECALL, *(branch_form(0, register, 0, 4) for register in [1, *chance.sample([10, 11, 12, 17], 2)])]

    def filled(self):
        """A block that a function takes and fills: its stack pointer is above afterwards, or another one is given, or the function isn't done yet."""
        chance, free = self.chance, self.free_slots()
        if not free:
            return self.give_back(chance.choice(list(self.taken)))
        slot = chance.choice(free)
        words = [*load_number(2, chance.choice([0x3080, 0x3100, 0x3000])), *self.taken_at(slot, chance.choice(BYTES))]
        for _ in range(chance.choice([1, 2, 4])):
            words += [*self.zeroed(slot), *self.meanwhile(slot)]
        leave = chance.choice([[add_immediate(2, 2, 16)], [add_immediate(2, 2, 16)], load_number(2, 0x4000), [add_immediate(2, 2, -16)], []])
        leave = self.parted(slot) if chance.random() < 0.4 else leave
        again = [*load_number(3, self.address(slot) + 4 * chance.choice([1, 1, 2])), store_form(2, 0, 0, 3)] if chance.random() < 0.5 else []
        return [*words, *leave, *again, *(word for at in (0, 4, 8) for word in self.shown(self.address(slot) + at))]

    def zeroed(self, slot):
        """A store into the block or beside it, of zeros or of what a register has; mostly it shows whether a byte of that word is unknown then."""
        chance, kind = self.chance, self.chance.choice([0, 1, 2, 2])
        at = self.address(slot) + chance.choice([0, 4, 4, 5, 8, chance.randrange(SLOT)]) & -(1 << kind)
        store = [*load_number(3, at), store_form(kind, chance.choice([0, self.register()]), 0, 3)]
        return [*store, *(shown_beside(chance.choice([0, 4]), chance.randrange(4) - at % 4) if chance.random() < 0.7 else [])]

    def meanwhile(self, slot):
        """What the function of a block does between two stores, if anything."""
        return self.chance.choices([list, self.moved, self.another, lambda: self.nobodys(slot)], [3, 2, 1, 3])[0]()

    def moved(self):
        """A stack pointer that is above or below then: above it ends the function, unless it was below before."""
        return [add_immediate(2, 2, self.chance.choice([-16, 16]))]

    def nobodys(self, slot):
        """Words are told to be nobody's; or what begins there, if anything, is given back, which makes nothing unknown."""
        first, count = self.chance.choices([self.rest, self.part, self.elsewhere], [5, 4, 1])[0](slot)
        told = self.compared(first, 4 * (0 if self.chance.random() < 0.1 else count), False)
        return self.shown_around(first, count, told)

    def parted(self, slot):
        """The rest of the slot is told to be nobody's from a part of a word on, or up to one, and the function returns. The page leaves open whose such a word
        is. So all of it is told then, which makes nothing unknown."""
        words, over, less = self.words_after(slot), self.chance.randrange(4), self.chance.randrange(4)
        if not words:
            return load_number(2, 0x4000)
        told = self.compared(words[0] + over, max(1, 4 * len(words) - over - less), False)
        return self.shown_around(words[0], len(words), [*told, *load_number(2, 0x4000), *self.compared(words[0], 4 * len(words), False)])

    def shown_around(self, first, count, told):
        """Some words at the ends of these and beside them: zeros are stored there at times, and after what is told it shows which are unknown."""
        offsets = [offset for offset in sorted({-4, 0, 4 * count - 8, 4 * count - 4, 4 * count}) if first + offset in MEMORY]
        zeros = [store_form(2, 0, offset, 3) for offset in offsets if self.chance.random() < 0.7]
        ends = [word for offset in offsets if self.chance.random() < 0.7 for word in shown_beside(2, offset)]
        return [*load_number(3, first), *zeros, *told, *ends]

    def words_after(self, slot):
        """Those of the slot after the bytes that were asked for; none where its block has all of it."""
        return range(self.address(slot) + 4 + (self.taken[slot] + 3 & -4), self.address(slot) + SLOT, 4)

    def rest(self, slot):
        """Some of these, if there are any: the first one, and how many."""
        return self.some(self.words_after(slot)) if self.words_after(slot) else self.part(slot)

    def part(self, slot):
        """The same of that block's words, or of those of another one of its own."""
        slot = self.chance.choice([slot, *self.taken])
        return self.some(range(self.address(slot) + 4, self.address(slot) + 4 + self.taken[slot], 4))

    def some(self, words):
        """Some words in a row: the first one, and how many."""
        first, last = sorted(self.chance.choices(words, k=2))
        return first, (last - first) // 4 + 1

    def elsewhere(self, _):
        """The same of words that frames use, or of what begins before memory, or ends after it."""
        return self.chance.choice([(self.chance.choice(WORDS), self.chance.choice([1, 2])), self.chance.choice(BEYOND)])

    def another(self):
        """A block of its own, if there is room."""
        free = self.free_slots()
        return self.taken_at(self.chance.choice(free), 8) if free else []

    def odd(self):
        """Stack pointers of every kind, threads whose numbers are taken again, handlers, requests, and what faults."""
        chance, length = self.chance, self.chance.choice([4, 12, 2048])
        kinds = [
            [*load_number(2, chance.choice([0x1008, 0x10008, 0xFFFFFFFC, 8, 0x3010])), NOTHING, add_immediate(2, 2, -length)],
            [*load_number(2, 0x3010), NOTHING, immediate_form(0x13, chance.choice([2, 3, 4, 5, 7]), 2, 2, chance.choice([1, 2, 16]))],
            [*load_number(2, chance.choice(WORDS)), NOTHING, immediate_form(0x03, 2, 2, 2, 0)],
            [*load_number(2, 0x3010), chance.choice([load_upper(2, 3), AUIPC]), add_immediate(2, 2, -8)],
            call_words(Call.CREATE, Label("short"), 0, chance.choice([0, 0x3000]), 1), call_words(Call.CREATE, Label("short"), 0, chance.choice([0, 0x3000]), 1),
            call_words(Call.CREATE, Label("short"), 0, 0, 0), call_words(Call.JOIN, chance.randrange(2, 8)),
            call_words(Call.CLEANUP_PUSH, Label("handler"), 5), [*call_words(Call.CLEANUP_PUSH, Label("handler"), 5), *call_words(Call.SETCANCELTYPE, 1)],
            [*self.unknown(5, 0x2000), chance.choice(NO_INSTRUCTIONS) if chance.random() < 0.2 else NOTHING],
            call_words(Call.CANCEL, chance.randrange(1, 6)), self.unknown_return(), [*load_number(7, -length), register_form(0, 0, 2, 7, 2)], self.unknown(8, 0x3000)]
        return chance.choice(kinds)

    def unknown_return(self):
        store = [*load_number(4, self.code()), *load_number(3, BESIDE_WORDS), store_form(2, 4, 0, 3)]
        return [*store, *load_number(2, BESIDE_WORDS + 4), NOTHING, add_immediate(2, 2, -4), *load_number(3, BESIDE_WORDS), immediate_form(0x03, 2, 1, 3, 0)]

    def many(self):
        """More places than have lines of their own, by another return address each time."""
        again = self.label()
        begin = [*self.unknown(5, 1), *load_number(1, START + 4), *load_number(16, self.chance.choice([30, 70, 90])), Mark(again)]
        return [*begin, branch_form(self.chance.choice([0, 6]), 5, 6, 4), add_immediate(1, 1, 2 * ZONE), add_immediate(16, 16, -1), Branch(1, 16, 0, again)]


def drawn_checks_case(chance, seed):
    """One of four has errors of memory alone."""
    return checks_case(chance, (Heaped if seed % 4 == 0 else Unstored)(chance))
