"""Values that were never stored, by small guests: which bits are unknown after a step, what is told, of which memory, and the text."""
import unittest
from itertools import product
from random import Random
from unittest.mock import patch

from cases.glances import recording_of as recorded
from cases.heaped import both_shown, kind_of_line
from cases.kinds import case_of
from model.abi import ALL_ONES, Call
from model.assembler import (Label, add, add_immediate, branch_form, call_words, immediate_form, jump_form, jump_register, load_number, load_upper,
                             register_form, store_form)
from model.bits import Value, decide_branch, decide_equal, decide_less, unknown_after, unknown_of_load
from model.callers import Up
from model.calls import CALLS
from model.values import Values
from unit.test_races import WithKeys, call, locked, recording_of

AT, BLOCK = 0x3000, 0x2800
BYTE, HALF, WORD, BYTE_UNSIGNED, HALF_UNSIGNED = 0, 1, 2, 4, 5
NOTHING, ECALL, EXIT = add_immediate(0, 0, 0), 0x73, call(Call.THREAD_EXIT, 0)
LOW, HIGH = 0xFF, 0xFF000000


def frame(at=AT, length=4):
    """Not right after the lui of its stack pointer."""
    return [*load_number(2, at + length), NOTHING, add_immediate(2, 2, -length)]


def store(register, at=AT, width=WORD):
    return [*load_number(3, at), store_form(width, register, 0, 3)]


def load(register, at=AT, width=WORD):
    return [*load_number(3, at), immediate_form(0x03, width, register, 3, 0)]


def unknown(register=5, number=0, at=AT):
    """A register with such a word, of which no bit is known."""
    return [*load_number(4, number), *store(4, at), *frame(at), *load(register, at)]


def given(at=BLOCK, length=12, register=6):
    """By the function at whose begin the stack pointer is 4096."""
    return [*load_number(7, at), *load_number(register, length), register_form(0, 2, 0, 7, register)]


def nobodys(at, length):
    return [*load_number(7, at), *load_number(6, length), register_form(0, 3, 0, 7, 6)]


def beside(register, other=0, funct3=0):
    """A branch to the next instruction, whichever way it goes."""
    return [branch_form(funct3, register, other, 4)]


def told(*turns, first=None, last=None, rows=(), **what):
    return recording_of(turns, **what).show(Values(rows), first, last).lines()


def short(line):
    """What is done and how often, or the words before a position, or the thread of a caller."""
    words = line.split()
    if "+" in words[0]:
        return "called" if words[3] == "called" else f"{words[3]} {line.partition(', ')[2]}"
    return line.strip().partition(" at ")[0]


class Guests(WithKeys):
    def uses(self, *words, **what):
        """Of one thread: without positions, pcs and memory."""
        return [short(line) for line in told((2, list(words)), **what) if line[0] != " "]

    def told_of(self, *words, **what):
        """The memory."""
        return [short(line) for line in told((2, list(words)), **what) if line[0] == " "]

    def after(self, *words, register=5, thread=2):
        """The unknown bits of a register."""
        return recording_of([(2, list(words))]).show(Values()).registers.get(thread, {}).get(register, (0, None))[0]

    def stored(self, *words, at=AT):
        """The unknown bits of a word of memory."""
        return recording_of([(2, list(words))]).show(Values()).words.get(at, (0, None))[0]


class Bits(unittest.TestCase):
    """Words with few unknown bits, of which all that they may be are tried."""

    def drawn(self, chance):
        unknown = 0
        for _ in range(chance.choice([0, 1, 2, 3])):
            unknown |= 1 << chance.choice([0, 1, 7, 8, 15, 30, 31, chance.randrange(32)])
        return Value(chance.choice([0, 1, 0x7F, 0x100, 0x80000000, 0x7FFFFFFF, ALL_ONES, chance.getrandbits(32)]), unknown)

    def all_of(self, value):
        places = [place for place in range(32) if value.unknown >> place & 1]
        return [value.number & ~value.unknown | sum(bit << place for bit, place in zip(bits, places)) for bits in product((0, 1), repeat=len(places))]

    def pairs(self, count=400):
        chance = Random(7)
        for _ in range(count):
            left, right = self.drawn(chance), self.drawn(chance)
            if chance.random() < 0.5:
                right = Value(left.number ^ chance.choice([0, 1, left.unknown]), right.unknown)
            yield left, right, list(product(self.all_of(left), self.all_of(right)))

    def test_exact(self):
        """Sums, differences, xor, and, or: a bit is unknown that may be 0 and may be 1."""
        effects = {(0, 0): lambda a, b: a + b & ALL_ONES, (32, 0): lambda a, b: a - b & ALL_ONES, (0, 4): lambda a, b: a ^ b,
                   (0, 6): lambda a, b: a | b, (0, 7): lambda a, b: a & b}
        for left, right, all_of in self.pairs():
            for (funct7, funct3), effect in effects.items():
                results = [effect(*pair) for pair in all_of]
                changed = 0
                for result in results:
                    changed |= result ^ results[0]
                self.assertEqual(unknown_after(funct7, funct3, left, right), changed)

    def test_less(self):
        for left, right, all_of in self.pairs():
            for is_signed, flip in ((False, 0), (True, 1 << 31)):
                outcomes = {first ^ flip < second ^ flip for first, second in all_of}
                self.assertEqual(decide_less(left, right, is_signed), len(outcomes) == 2)
                self.assertEqual([unknown_after(0, 2 if is_signed else 3, left, right)], [len(outcomes) - 1])
                self.assertEqual([decide_branch(funct3, left, right) for funct3 in ((4, 5) if is_signed else (6, 7))], [len(outcomes) == 2] * 2)

    def test_equal(self):
        for left, right, all_of in self.pairs(3000):
            is_decided = len({first == second for first, second in all_of}) == 2
            self.assertEqual(decide_equal(left, right), is_decided)
            self.assertEqual([decide_branch(funct3, left, right) for funct3 in (0, 1)], [is_decided] * 2)

    def test_zero_bytes(self):
        """They are of no account: unknown bits decide also after such a byte, where all known ones are equal."""
        for left, right, is_decided in (
                (Value(0x41004100, HIGH), Value(0x41004100), True), (Value(0x41004100, LOW), Value(0x41004100), True), (Value(0x41004100, 0xFF00), Value(0x41004100), True),
                (Value(0x41004141, LOW), Value(0x41004141), True), (Value(0x41004141, HIGH), Value(0x41004141), True), (Value(0, HIGH), Value(0), True),
                (Value(0x41004141, HIGH), Value(0x41014141), False), (Value(0x00414141, HIGH), Value(0x00414141), True),
                (Value(0x41004141, HIGH), Value(0x41000041), False), (Value(0x41414100), Value(0x41414100, 0xFF00), True),
                (Value(0x41414100, LOW), Value(0x41414100), True), (Value(0x41414100), Value(0x41414101, HIGH), False),
                (Value(0x12004141, LOW), Value(0x34004141, HIGH), True), (Value(0x12004141, LOW), Value(0x34004141), False),
                (Value(0x12004141, LOW | HIGH), Value(0x34004141), True), (Value(0x12004141, HIGH), Value(0x34004141), True),
                (Value(0x41004100), Value(0x41004100), False), (Value(0), Value(1), False)):
            self.assertEqual([decide_branch(funct3, left, right) for funct3 in (0, 1)], [is_decided] * 2, (left, right))
            self.assertEqual([decide_branch(funct3, right, left) for funct3 in (0, 1)], [is_decided] * 2)

    def test_sums(self):
        """The bits of either operand, and those to which a carry may come: 0xF and 1 are 0x10, and 0xE and 1 are 0xF."""
        for left, right, mask in (
                (Value(0, 0x100), Value(0x8000), 0x100), (Value(0x8000), Value(0, 0x100), 0x100), (Value(0xF, 1), Value(1), 0x1F), (Value(1), Value(0xF, 1), 0x1F),
                (Value(5, 0x100), Value(6, 0x8000), 0x8100), (Value(0, 0xFF), Value(0, 0xFF), 0x1FF), (Value(0x100, 0xFF), Value(0x100), 0xFF),
                (Value(0xFFFFFF00, 0xFF), Value(1), ALL_ONES), (Value(0xFFFFFF00, LOW), Value(0xFFFFFF00), LOW), (Value(0, 1 << 31), Value(0, 1 << 31), 1 << 31),
                (Value(3, 1), Value(1, 2), 7), (Value(0x40, 0x10), Value(0x20, 0x10), 0xF0), (Value(7), Value(9), 0)):
            self.assertEqual(unknown_after(0, 0, left, right), mask, (left, right))

    def test_differences(self):
        """The bits of either operand, and those from which may be taken: 0x10 less 0 or 1 is 0x10 or 0xF."""
        for left, right, mask in (
                (Value(0x10), Value(0, 1), 0x1F), (Value(0x10, 1), Value(1), 0x1F), (Value(0x11, 1), Value(0), 1), (Value(0x8000), Value(0, 0x100), 0xFF00),
                (Value(0x8000, 0x100), Value(0), 0x100), (Value(0x300), Value(0, 0x100), 0x100), (Value(0, 1), Value(1), ALL_ONES), (Value(0), Value(0, 1), ALL_ONES),
                (Value(0x1FF), Value(0, 0xFF), 0xFF), (Value(0xFF, 0xFF), Value(0), 0xFF), (Value(0x300, 0x100), Value(0, 0x100), 0x300),
                (Value(0x100, 0x100), Value(0x100, 0x100), 0xFFFFFF00), (Value(7), Value(9), 0)):
            self.assertEqual(unknown_after(32, 0, left, right), mask, (left, right))

    def test_shifts(self):
        """As the value is; by an amount that is unknown in its five bits all."""
        value = Value(0x12345678, 0x80000F00)
        found = [unknown_after(funct7, funct3, value, Value(number)) for funct7, funct3 in ((0, 1), (0, 5), (32, 5)) for number in (4, 36, 0)]
        self.assertEqual(found, [0xF000, 0xF000, 0x80000F00, 0x080000F0, 0x080000F0, 0x80000F00, 0xF80000F0, 0xF80000F0, 0x80000F00])
        for funct7, funct3 in ((0, 1), (0, 5), (32, 5)):
            self.assertEqual([unknown_after(funct7, funct3, Value(0), Value(4, mask)) for mask in (1, 16, 32, 0xFFFFFFE0)], [ALL_ONES, ALL_ONES, 0, 0])

    def test_loads(self):
        found = [unknown_of_load(0x800080F0, at, length, is_signed) for at, length, is_signed in
                 ((0, 4, False), (0, 2, False), (2, 2, False), (2, 2, True), (0, 2, True), (0, 1, True), (3, 1, True), (3, 1, False), (1, 1, False), (2, 1, True))]
        self.assertEqual(found, [0x800080F0, 0x80F0, 0x8000, 0xFFFF8000, 0xFFFF80F0, 0xFFFFFFF0, 0xFFFFFF80, 0x80, 0x80, 0])


class Following(Guests):
    def test_begin(self):
        """All is known, of memory and of registers, also of those that nothing was put into."""
        self.assertEqual(self.uses(*load(5), *beside(5), *beside(20), *beside(2), *load(6, 0x2000), *beside(6)), [])

    def test_loads(self):
        masks = {WORD: ALL_ONES, HALF: ALL_ONES, BYTE: ALL_ONES, HALF_UNSIGNED: 0xFFFF, BYTE_UNSIGNED: 0xFF}
        self.assertEqual({width: self.after(*frame(), *load(5, width=width)) for width in masks}, masks)
        self.assertEqual(self.after(*frame(), *load(5), *load(5, 0x2000)), 0)
        self.assertEqual([self.after(*frame(), *store(0, AT, BYTE), *load(5, AT + at, BYTE)) for at in range(4)], [0, ALL_ONES, ALL_ONES, ALL_ONES])

    def test_stores(self):
        """Of the bytes that are stored alone."""
        found = [self.stored(*frame(), *store(0, AT + at, width)) for at, width in ((0, BYTE), (1, BYTE), (3, BYTE), (0, HALF), (2, HALF), (0, WORD))]
        self.assertEqual(found, [0xFFFFFF00, 0xFFFF00FF, 0x00FFFFFF, 0xFFFF0000, 0xFFFF, 0])
        there = 0x3010
        found = [self.stored(*unknown(), *store(5, there + at, width), at=there) for at, width in ((0, BYTE), (2, BYTE), (2, HALF), (0, WORD))]
        self.assertEqual(found, [0xFF, 0xFF0000, 0xFFFF0000, ALL_ONES])
        self.assertEqual(self.stored(*unknown(), immediate_form(0x13, 1, 5, 5, 8), *store(5, there, HALF), at=there), 0xFF00)

    def test_constants(self):
        """An operand that is known."""
        low = [*frame(), *load(5, width=BYTE_UNSIGNED)]
        self.assertEqual([self.after(*low, add_immediate(5, 5, constant)) for constant in (256, -1, -256)], [LOW, ALL_ONES, LOW])
        forms = {0: (1, 0x1FF), 4: (-1, LOW), 6: (0x0F, 0xF0), 7: (0x0F, 0x0F)}
        for funct3, (constant, mask) in forms.items():
            self.assertEqual(self.after(*low, immediate_form(0x13, funct3, 5, 5, constant)), mask)
        self.assertEqual(self.after(*unknown(), immediate_form(0x13, 7, 5, 5, -16)), 0xFFFFFFF0)
        self.assertEqual(self.after(*low, immediate_form(0x13, 1, 5, 5, 4)), 0xFF0)
        self.assertEqual(self.after(*low, immediate_form(0x13, 5, 5, 5, 4)), 0x0F)
        self.assertEqual(self.after(*unknown(), immediate_form(0x13, 5, 5, 5, 4)), 0x0FFFFFFF)
        self.assertEqual(self.after(*unknown(), immediate_form(0x13, 5, 5, 5, 4 | 0x400)), ALL_ONES)
        self.assertEqual([self.after(*low, immediate_form(0x13, 3, 5, 5, limit)) for limit in (1, 255, 256, 0, -1)], [1, 1, 0, 0, 0])
        self.assertEqual([self.after(*low, immediate_form(0x13, 2, 5, 5, limit)) for limit in (1, 256, -1)], [1, 0, 0])

    def test_registers(self):
        """Either operand's."""
        low = [*frame(), *load(5, width=BYTE_UNSIGNED), *load_number(6, 0x0F)]
        forms = {(0, 0): 0x1FF, (32, 0): ALL_ONES, (0, 4): LOW, (0, 6): 0xF0, (0, 7): 0x0F, (0, 3): 1, (0, 2): 1}
        for (funct7, funct3), mask in forms.items():
            self.assertEqual(self.after(*low, register_form(funct7, funct3, 5, 5, 6)), mask)
            self.assertEqual(self.after(*low, register_form(funct7, funct3, 7, 6, 5), register=7), mask)
        self.assertEqual(self.after(*low, register_form(0, 1, 7, 5, 6), register=7), 0xFF << 15)
        self.assertEqual(self.after(*low, register_form(0, 1, 7, 6, 5), register=7), ALL_ONES)
        self.assertEqual(self.after(*low, add(7, 6, 0), register=7), 0)

    def test_known_after(self):
        """lui, auipc and links."""
        for words in ([load_upper(5, 1)], [0x00001297], [jump_form(5, 4)], [0x00000317, jump_register(5, 6, 8)]):
            self.assertEqual(self.after(*unknown(), *words), 0)
        self.assertEqual(self.after(*unknown(), NOTHING, *beside(5), 0x0FF0000F), ALL_ONES)

    def test_zero(self):
        """x0 is always known."""
        for words in (load(0), [add(0, 5, 5)], [immediate_form(0x13, 0, 0, 5, 1)]):
            self.assertEqual(self.after(*unknown(), *words, add(6, 0, 0), register=6), 0)

    def test_calls(self):
        """Nothing is unknown of three registers."""
        every = [word for register in (1, 10, 11, 12, 16, 18) for word in load(register)]
        found = {register: self.after(*frame(), *every, *load_number(17, 14), ECALL, register=register) for register in (1, 10, 11, 12, 16, 18)}
        self.assertEqual(found, {1: 0, 10: 0, 11: 0, 12: ALL_ONES, 16: ALL_ONES, 18: ALL_ONES})

    def test_gate(self):
        """A handler begins with all of these known."""
        every = [word for register in (1, 10, 11, 12) for word in load(register)]
        handler = [*(word for register in (1, 10, 11, 12) for word in beside(register)), *every, *load_number(5, 0xFFFFFFF4), jump_register(0, 5, 0)]
        words = [*(2 * call(Call.CLEANUP_PUSH, Label("handler"), 5)), *frame(), *every, *load_number(17, Call.THREAD_EXIT), ECALL]
        lines = told((2, words), (2, 2 * len(handler)), routines=[("handler", handler)])
        self.assertEqual([short(line) for line in lines if line[0] != " "], ["calls once", "branches 2 times"])

    def test_return_gate(self):
        """Its status is told of nobody; another thread that takes the number knows all its registers."""
        routine = [*(word for register in (5, 10) for word in beside(register)), *frame(AT + 16), *load(5, AT + 16), *load(10, AT + 16), *load_number(1, 0xFFFFFFF0), jump_register(0, 1, 0)]
        made = call(Call.CREATE, Label("routine"), 0, 0, 1)
        turns = (2, made), (4, len(routine) + 1), (2, made), (4, len(routine) + 1)
        self.assertEqual(told(*turns, routines=[("routine", routine)]), [])

    def test_joined(self):
        """Also one that has ended and wasn't joined yet, as the next thread has its number."""
        turns = (2, [*unknown(), *EXIT]), (3, [*call(Call.JOIN, 2), *call(Call.CREATE, Label("routine"), 0, 0, 0)]), (2, beside(5))
        self.assertEqual(told((2, [*unknown(), *beside(5)]), routines=[("routine", beside(5))])[0].split()[3], "branches")
        values = recording_of(turns, routines=[("routine", beside(5))]).show(Values())
        self.assertNotIn(2, values.registers)

    def test_request(self):
        """A thread that acts on a request at once begins its handler with the same known."""
        handler = [word for register in (1, 10, 11, 12) for word in beside(register)]
        words = [*call(Call.CLEANUP_PUSH, Label("handler"), 5), *call(Call.SETCANCELTYPE, 1), *frame(), *(word for register in (1, 10, 11, 12) for word in load(register))]
        lines = told((2, words), (3, call(Call.CANCEL, 2)), (2, 1 + len(handler)), routines=[("handler", handler)])
        self.assertEqual([short(line) for line in lines if line[0] != " "], ["branches once"])

    def test_threads(self):
        """Each has its own registers, and all the same memory."""
        self.assertEqual(told((2, unknown()), (3, beside(5))), [])
        self.assertEqual(short(told((2, frame()), (3, [*load(5), *beside(5)]))[0]), "branches once")


class Frames(Guests):
    def lowered(self, *words, old=AT + 16):
        """The addresses of the words that are unknown, from the frame's begin on, after a step that computes the stack pointer."""
        values = recording_of([(2, [*load_number(2, old), NOTHING, *words])]).show(Values())
        return [at for at, (mask, _) in sorted(values.words.items()) if mask]

    def test_words(self):
        """From the new one to the old one."""
        for words in ([add_immediate(2, 2, -8)], [*load_number(5, 8), register_form(32, 0, 2, 2, 5)], [*load_number(5, -8), add(2, 2, 5)],
                      [immediate_form(0x13, 4, 2, 2, 0x18)]):
            self.assertEqual(self.lowered(*words), [AT + 8, AT + 12])
        self.assertEqual(self.lowered(immediate_form(0x13, 7, 2, 2, -16), old=AT + 24), [AT + 16, AT + 20])
        self.assertEqual(self.lowered(add_immediate(2, 2, 8)), [])
        self.assertEqual(self.lowered(add_immediate(2, 2, 0)), [])
        self.assertEqual(self.lowered(immediate_form(0x13, 5, 2, 2, 1), old=0x6010), list(range(0x3008, 0x6010, 4)))

    def test_parts_of_words(self):
        """A quarter as many words as it gets less, from the new one's on."""
        for old, less, words in ((AT + 19, 5, [AT + 12]), (AT + 16, 1, []), (AT + 16, 3, []), (AT + 17, 3, []), (AT + 16, 5, [AT + 8]), (AT + 18, 4, [AT + 12]),
                                 (AT + 18, 8, [AT + 8, AT + 12]), (AT + 19, 7, [AT + 12]), (AT + 17, 7, [AT + 8]), (AT + 19, 11, [AT + 8, AT + 12])):
            self.assertEqual(self.lowered(add_immediate(2, 2, -less), old=old), words, (old, less))

    def test_none(self):
        """Where it is not computed with itself as the first operand, or another register is."""
        for words in ([*load_number(5, -8), add(2, 5, 2)], [*load_number(5, 0x6010), register_form(32, 0, 2, 5, 2)]):
            self.assertEqual(self.lowered(*words), [])
        self.assertEqual(self.lowered(*load_number(5, AT), add_immediate(2, 5, 0)), [])
        self.assertEqual(self.lowered(*load_number(2, AT)), [])
        self.assertEqual(self.lowered(add_immediate(5, 2, -8)), [])
        self.assertEqual(self.lowered(*load_number(3, 0x2000), immediate_form(0x03, 2, 2, 3, 0)), [])
        self.assertEqual(self.lowered(*load_number(6, AT), *store(6, AT + 16), immediate_form(0x03, 2, 2, 2, 0)), [])
        self.assertEqual(self.lowered(jump_register(2, 2, 0)), [])
        self.assertEqual(self.lowered(add_immediate(2, 5, 2)), [])  # a constant 2 is no register 2

    def test_after_upper(self):
        """Right after a lui or auipc to it there is none, and one step later there is."""
        for upper in (load_upper(2, 3), 0x00003117):
            self.assertEqual(self.lowered(upper, add_immediate(2, 2, -8)), [])
            self.assertEqual(len(self.lowered(upper, NOTHING, add_immediate(2, 2, -8))), 2)
            self.assertEqual(len(self.lowered(upper, add_immediate(2, 2, -8), add_immediate(2, 2, -8))), 2)
        self.assertEqual(len(self.lowered(load_upper(5, 3), add_immediate(2, 2, -8))), 2)

    def test_word_before(self):
        """By the word that stands before the instruction, whatever was done between, and whether it was done itself."""
        lui, lower = load_upper(2, 3), add_immediate(2, 2, -8)
        self.assertEqual(self.lowered(jump_form(0, 8), lui, lower), [])
        self.assertEqual(len(self.lowered(lui, *call(Call.SELF), lower)), 2)
        self.assertEqual(len(self.lowered(lui, jump_form(0, 8), NOTHING, lower)), 2)
        self.assertEqual(len(self.lowered(lower, lui)), 2)
        turns = (2, [*load_number(2, AT), lui]), (3, [NOTHING]), (2, [lower])
        self.assertEqual([recording_of(turns).show(Values(), first).words for first in (None, 6)], [{}, {}])

    def test_ends_of_memory(self):
        self.assertEqual(self.lowered(add_immediate(2, 2, -16), old=0x1008)[0], 0x1000)
        self.assertEqual(self.lowered(add_immediate(2, 2, -16), old=0x10008)[-1], 0xFFFC)
        self.assertEqual(self.lowered(add_immediate(2, 2, -16), old=0x1002)[-1:], [])
        self.assertEqual(self.lowered(add_immediate(2, 2, -16), old=0x1009), [0x1000, 0x1004])

    def test_anew(self):
        """All bits, whatever was stored before; and what was stored after that is known."""
        self.assertEqual(self.stored(*frame(), *store(0), *frame()), ALL_ONES)
        self.assertEqual(self.stored(*frame(), *store(0)), 0)
        self.assertEqual(self.stored(*frame(), *load_number(2, AT + 8)), ALL_ONES)


class Blocks(Guests):
    """Threads 2 and 3 begin with the stack pointer 0."""

    def zeroed(self, *words, at=BLOCK + 4, before=(), behind=()):
        """The unknown bits of a word, into which the block's thread stores after these."""
        return self.stored(*load_number(2, 0x1800), *before, *given(), *words, *store(0, at), *behind, at=at & -4)

    def test_stores(self):
        """A word that is stored into is unknown whole, also by a part that is known; no other word is."""
        self.assertEqual([self.zeroed(at=BLOCK + at) for at in (-4, 0, 4, 8, 12)], [0, ALL_ONES, ALL_ONES, ALL_ONES, 0])
        self.assertEqual([self.stored(*given(), *store(0, BLOCK + at, width), at=BLOCK + 4) for at, width in ((5, BYTE), (6, HALF), (4, WORD), (3, BYTE), (8, BYTE))],
                         [ALL_ONES, ALL_ONES, ALL_ONES, 0, 0])
        self.assertEqual([self.stored(*given(BLOCK + over), *store(0, BLOCK + at), at=BLOCK + at) for over in (1, 3) for at in (0, 8, 12)], [ALL_ONES, ALL_ONES, 0] * 2)

    def test_nothing_stored(self):
        """What was there stays as it is."""
        self.assertEqual(self.stored(*given(), at=BLOCK + 4), 0)
        self.assertEqual(self.uses(*given(), *load(5, BLOCK + 4), *beside(5)), [])

    def test_stack_pointer(self):
        """Up to the first step at which it is above."""
        for words, mask in (([add_immediate(2, 2, 4)], 0), ([add_immediate(2, 2, -16)], ALL_ONES), ([add_immediate(2, 2, -16), add_immediate(2, 2, 16)], ALL_ONES),
                            ([add_immediate(2, 2, 4), add_immediate(2, 2, -4)], 0), ([add_immediate(2, 2, 1)], 0), ([*load_number(2, -16)], 0), ([add_immediate(2, 0, 0)], ALL_ONES)):
            self.assertEqual(self.zeroed(*words), mask)

    def test_another_thread(self):
        """Its stores are stores, and its stack pointer is of no account; a block that it is given ends the giving."""
        turns = (2, given()), (3, [*load_number(2, 0x5000), *store(0, BLOCK + 4)]), (2, store(0, BLOCK + 8))
        values = recording_of(turns).show(Values())
        self.assertEqual([values.words.get(BLOCK + at, (0,))[0] for at in (4, 8)], [0, ALL_ONES])
        values = recording_of([(2, given()), (3, given(BLOCK + 32)), (2, store(0, BLOCK + 4)), (3, store(0, BLOCK + 36))]).show(Values())
        self.assertEqual([values.words.get(BLOCK + at, (0,))[0] for at in (4, 36)], [0, ALL_ONES])

    def test_again(self):
        """By the same thread, also where it gives nothing."""
        self.assertEqual(self.zeroed(*given(BLOCK + 32)), 0)
        self.assertEqual(self.zeroed(*given(BLOCK + 32, 0)), 0)
        self.assertEqual(self.zeroed(*given(BLOCK + 4, 4)), ALL_ONES)
        self.assertEqual(self.zeroed(register_form(0, 3, 0, 7, 6)), ALL_ONES)  # given back
        self.assertEqual(self.zeroed(register_form(0, 2, 8, 7, 6)), ALL_ONES)  # compared
        self.assertEqual(self.zeroed(immediate_form(0x13, 2, 0, 7, 6)), ALL_ONES)

    def test_ended(self):
        """What counts is the number: the thread that takes it goes on, up to a stack pointer above."""
        for words, mask in ([], ALL_ONES), ([add_immediate(2, 2, 4)], 0):
            routine = [*words, *store(0, BLOCK + 4)]
            turns = (2, [*given(), *EXIT]), (3, [*call(Call.JOIN, 2), *call(Call.CREATE, Label("routine"), 0, 0, 0)]), (2, len(routine))
            values = recording_of(turns, routines=[("routine", routine)]).show(Values())
            self.assertEqual(values.words.get(BLOCK + 4, (0,))[0], mask)

    def told_of_nobody(self, *words):
        """The addresses of the words that are unknown then."""
        return [at for at, (mask, _) in sorted(recording_of([(2, list(words))]).show(Values()).words.items()) if mask]

    def test_nobodys(self):
        """A quarter as many words as bytes are told, from the first one's on, in the block or not; none by a block that is given back."""
        for at, length, words in ((BLOCK + 8, 8, [BLOCK + 8, BLOCK + 12]), (BLOCK + 12, 4, [BLOCK + 12]), (AT, 4, [AT]), (BLOCK + 11, 4, [BLOCK + 8]),
                                  (BLOCK + 9, 7, [BLOCK + 8]), (BLOCK + 8, 3, []), (BLOCK + 11, 3, []), (BLOCK + 4, 0, []),
                                  (0xFFC, 8, [0x1000]), (0xFFF8, 16, [0xFFF8, 0xFFFC]), (0x10000, 4, []), (0xFFFFFFF8, 0x2000, []), (0xFFFC, -4, [0xFFFC])):
            self.assertEqual(self.told_of_nobody(*given(), *nobodys(at, length)), words, (at, length))
        self.assertEqual(self.told_of_nobody(*given(), *nobodys(BLOCK, 4)[:-1], register_form(0, 3, 8, 7, 6)), [])  # compared

    def test_nobodys_giving(self):
        """Only while a block is being given, to that thread; what is stored there is known again, but in the block."""
        leave, there = add_immediate(2, 2, 16), nobodys(BLOCK + 8, 8)
        for words, unknown_ones in ((there, []), ([*there, *given()], []), ([*given(), leave, *there], []), ([*given(), *there, leave], [BLOCK + 8, BLOCK + 12])):
            self.assertEqual(self.told_of_nobody(*words), unknown_ones)
        self.assertEqual(self.told_of_nobody(*given(), *there, *store(0, BLOCK + 8), *store(0, BLOCK + 12)), [BLOCK + 8])
        self.assertEqual(self.told_of_nobody(*given(), *there, leave, *store(0, BLOCK + 8)), [BLOCK + 12])
        for turns in ([(2, given()), (3, there)], [(2, given()), (3, given(AT)), (2, there)]):
            self.assertEqual(recording_of(turns).show(Values()).words, {})

    def test_stays(self):
        """Unknown it is until something is stored behind that."""
        leave = add_immediate(2, 2, 16)
        self.assertEqual(self.zeroed(behind=[leave]), ALL_ONES)
        self.assertEqual(self.zeroed(behind=[leave, *store(0, BLOCK + 4, HALF)]), 0xFFFF0000)


class Told(Guests):
    def test_branches(self):
        """By each condition, taken or not."""
        for funct3 in (0, 1, 4, 5, 6, 7):
            for number in (0, 7, -7):
                self.assertEqual(self.uses(*unknown(5, number), *load_number(6, 7), *beside(5, 6, funct3)), ["branches once"])
                self.assertEqual(self.uses(*unknown(5, number), *load_number(6, 7), *beside(6, 5, funct3)), ["branches once"])
        self.assertEqual(self.uses(*frame(), *load(5, width=BYTE_UNSIGNED), *load_number(6, 256), *beside(5, 6, 6), *beside(5, 6, 1)), [])

    def test_equality(self):
        """Where no known bit differs, also from x0."""
        for number, told in ((0, ["branches once"] * 2), (1, [])):
            half = [*load_number(4, number), *frame(), *store(4, AT, BYTE), *load(5)]
            self.assertEqual(self.uses(*half, *beside(5), *beside(5, 0, 1)), told)
            self.assertEqual(self.uses(*half, *beside(5, 0, 6), *beside(0, 5, 6)), ["branches once"][number:])
        self.assertEqual(self.uses(*frame(), *load(5, width=BYTE_UNSIGNED), *beside(5)), ["branches once"])

    def test_addresses(self):
        for words, what in (([immediate_form(0x03, 2, 6, 5, 0)], "loads"), ([immediate_form(0x03, 0, 0, 5, 1)], "loads"), ([store_form(2, 0, 0, 5)], "stores"),
                            ([store_form(0, 5, 0, 5)], "stores"), ([jump_register(0, 5, 0)], "jumps"), ([jump_register(5, 5, 4)], "jumps")):
            self.assertEqual(self.uses(*unknown(5, 0x2000), *words), [f"{what} once"])

    def test_not_told(self):
        """Copies, results and jumps by constants."""
        self.assertEqual(self.uses(*unknown(), *store(5, 0x2000), add(6, 5, 5), add_immediate(2, 5, 0), jump_form(5, 4), NOTHING), [])
        self.assertEqual(self.uses(*load_number(5, 0x2000), *frame(), *load(6), store_form(2, 6, 0, 5), 0x0FF0000F, register_form(0, 2, 0, 6, 6)), [])

    def test_faults(self):
        """A step that faults is told, too."""
        for words, what in (([immediate_form(0x03, 2, 6, 5, 0)], "loads"), ([store_form(1, 0, 0, 5)], "stores"), ([jump_register(0, 5, 2)], "jumps")):
            self.assertEqual(self.uses(*unknown(5, 1), *words), [f"{what} once"])

    def test_words_that_are_none(self):
        """Neither branch, load, store nor jump."""
        for word in (branch_form(2, 5, 5, 4), branch_form(3, 5, 5, 4), immediate_form(0x03, 3, 6, 5, 0), immediate_form(0x03, 6, 6, 5, 0), store_form(3, 5, 0, 5), immediate_form(0x67, 1, 0, 5, 0)):
            self.assertEqual(self.uses(*unknown(5, 0x2000), word), [])

    def test_after(self):
        """Of what is loaded by an unknown address the bytes tell what is unknown."""
        self.assertEqual(self.after(*unknown(5, 0x2000), immediate_form(0x03, 2, 5, 5, 0)), 0)
        self.assertEqual(self.stored(*unknown(5, 0x2000), store_form(2, 0, 0, 5), at=0x2000), 0)

    def test_calls(self):
        """So many registers as each takes, by the table of calls; moments are two, and the number is none of them."""
        takes = {0: [3, 4, 14, 61, 99], 1: [1, 2, 11, 12, 13, 21, 22, 23, 25, 30, 31, 34, 35, 41, 42, *range(50, 57), 60, 62, 63, 65, 70, 71, 73],
                 2: [5, 20, 32, 40, 64, 72], 3: [24], 4: [10, 33]}
        self.assertEqual({*range(1, 100)} & {*sum(takes.values(), [])} - {99}, set(map(int, CALLS)))
        for count, numbers in takes.items():
            for number, register in product(numbers, (10, 11, 12, 13)):
                words = [*call_words(number, 1, 1, 1, 1)[:-1], *unknown(register, 1), ECALL]
                self.assertEqual(self.uses(*words), ["calls once"] if register < 10 + count else [], (number, register))
        self.assertEqual(self.uses(*unknown(17, 14), ECALL, *unknown(18), ECALL), [])
        self.assertEqual(self.uses(*unknown(10), *unknown(17, 2), ECALL), ["calls once"])

    def test_bits_of_a_register(self):
        """Any unknown one of an argument's register."""
        self.assertEqual(self.uses(*unknown(10), immediate_form(0x13, 1, 10, 10, 31), *load_number(17, 2), ECALL), ["calls once"])

    def test_under_the_lock(self):
        """Of its owner nothing is told, but it is followed."""
        self.assertEqual(self.uses(*locked([*unknown(), *beside(5)], 2)), [])
        self.assertEqual(self.uses(*locked(unknown(), 2), *beside(5)), ["branches once"])
        for mutex in (1, 3, 4, 5, 0x2002):
            self.assertEqual(self.uses(*locked([*unknown(), *beside(5)], mutex)), ["branches once"])
        self.assertEqual(short(told((2, call(Call.MUTEX_LOCK, 2)), (3, [*unknown(), *beside(5)]))[0]), "branches once")
        self.assertEqual(self.uses(*unknown(10, 2), *load_number(17, Call.MUTEX_LOCK), ECALL, *unknown(10, 2), *load_number(17, Call.MUTEX_UNLOCK), ECALL), ["calls once"])


class Whose(Guests):
    BLOCK_WORD = [*given(), *store(0, BLOCK + 4), *given(0x2000, 0)]
    IS_BLOCK, IS_FRAME = "in a block that was taken", "in a frame that was made"

    def test_memory(self):
        self.assertEqual(self.told_of(*frame(), *load(5), *beside(5)), [self.IS_FRAME])
        self.assertEqual(self.told_of(*self.BLOCK_WORD, *load(5, BLOCK + 4), *beside(5)), [self.IS_BLOCK])

    def operands(self):
        return [*self.BLOCK_WORD, *load(5, BLOCK + 4), *frame(), *load(6)]

    def test_operands(self):
        """The first that has unknown bits, also of branches and calls."""
        for words, what in (([add(7, 5, 6), *beside(7)], self.IS_BLOCK), ([add(7, 6, 5), *beside(7)], self.IS_FRAME), ([add(7, 0, 6), *beside(7)], self.IS_FRAME),
                            ([add(7, 5, 0), *beside(7)], self.IS_BLOCK), (beside(5, 6), self.IS_BLOCK), (beside(6, 5), self.IS_FRAME), (beside(0, 6), self.IS_FRAME),
                            ([register_form(0, 1, 7, 4, 6), *beside(7)], self.IS_FRAME), ([store_form(2, 6, 0, 5)], self.IS_BLOCK)):
            self.assertEqual(self.told_of(*self.operands(), *load_number(4, 1), *words), [what])
        move = [add_immediate(10, 6, 0), add_immediate(11, 5, 0), *load_number(17, 5), ECALL]
        self.assertEqual(self.told_of(*self.operands(), *move), [self.IS_FRAME])
        self.assertEqual(self.told_of(*self.operands(), add_immediate(10, 0, 0), *move[1:]), [self.IS_BLOCK])

    def test_words(self):
        """What is stored into a word, if that has unknown bits, else what was there."""
        there = [*self.operands(), *store(5, 0x2000)]
        found = [self.told_of(*there, *words, *load(7, 0x2000), *beside(7)) for words in ([], store(0, 0x2000, BYTE), store(6, 0x2001, BYTE), store(6, 0x2000))]
        self.assertEqual(found, [[self.IS_BLOCK], [self.IS_BLOCK], [self.IS_FRAME], [self.IS_FRAME]])
        self.assertEqual(self.told_of(*there, *store(0, 0x2001, BYTE), *load(7, 0x2000), *beside(7, 0, 6), *beside(0, 7, 6)), [self.IS_BLOCK])
        high = [*self.operands(), immediate_form(0x13, 1, 6, 6, 8), *store(5, 0x2000), *store(6, 0x2000, BYTE), *load(7, 0x2000), *beside(0, 7, 6)]
        self.assertEqual(self.told_of(*high), [self.IS_BLOCK])

    def test_anew(self):
        """A frame's word is the last frame's, and a block's what is put into it last."""
        lines = told((2, frame()), (3, [*frame(), *load(5), *beside(5)]))
        self.assertIn("by thread 3", lines[1])
        self.assertEqual(self.told_of(*unknown(8), *given(), *store(8, BLOCK + 4), *load(5, BLOCK + 4), *beside(5)), [self.IS_BLOCK])
        for words in (store(0, BLOCK + 4), store(0, BLOCK + 7, BYTE), store(8, BLOCK + 7, BYTE), nobodys(BLOCK + 4, 4)):
            self.assertEqual(self.told_of(*unknown(8), *frame(BLOCK, 16), *given(), *words, *load(5, BLOCK + 4), *beside(5)), [self.IS_BLOCK])
        self.assertEqual(self.told_of(*self.BLOCK_WORD, *frame(BLOCK, 16), *load(5, BLOCK + 4), *beside(5)), [self.IS_FRAME])


class Lines(Guests):
    def test_text(self):
        """The creates are 14 steps; thread 2 begins at 0x103c, and thread 3 at 0x105c."""
        lines = told((2, frame()), (3, [*load(5), *beside(5)]))
        self.assertEqual(lines, ["5+2 thread 3 branches pc 00001058 by a value that was never stored, once", "    in a frame that was made at 3+3 by thread 2"])
        lines = told((2, given()), (2, store(0, BLOCK)), (3, [*load(5, BLOCK), immediate_form(0x03, 2, 6, 5, 0)]))
        self.assertEqual(lines[0].split()[3:6:2], ["loads", "00001068"])
        self.assertRegex(lines[1], r"^    in a block that was taken at 3\+\d+ by thread 2$")

    def test_none(self):
        self.assertEqual(told((2, frame())), [])

    def test_callers(self):
        """Of the use, and of who was given the memory, as it was then."""
        rows = [Up(0x1000, 0x1000, 8, 0, None, None)]
        frames = [*load_number(8, 0x3000), *load_number(1, 0x8004)]
        for memory, at in ((frame(), AT), ([*given(), *store(0, BLOCK)], BLOCK)):
            lines = told((2, [*frames, *memory]), (3, [*frames[:-1], load_upper(1, 9), *load(5, at), *beside(5)]), rows=rows)
            self.assertEqual([line.split()[-1] for line in lines[1:]], ["00008ffc" if len(frames) == 3 else "00009000", "2", "00008000"])
            self.assertEqual([short(line) for line in lines[1::2]], ["called", "called"])

    def counted(self, step, rounds=3):
        """The same branch again and again, with one step between."""
        words = [*unknown(), *load_number(1, 0x1104), step, *beside(5, 5), jump_form(0, -8)]
        return [short(line) for line in told((2, words), (2, 3 * rounds - 3)) if line[0] != " "]

    def test_one_place(self):
        """What is done, the pc and register 1 make one line."""
        self.assertEqual(self.counted(NOTHING), ["branches 3 times"])
        self.assertEqual(self.counted(add_immediate(1, 1, 4)), ["branches once"] * 3)
        self.assertEqual(self.counted(add_immediate(6, 6, 4)), ["branches 3 times"])
        self.assertEqual(self.uses(*unknown(), *beside(5), *beside(5)), ["branches once"] * 2)

    def test_what_is_done(self):
        """A branch and a load at one place are two: its word is changed between. Thread 2 begins at 0x103c."""
        made, place = unknown(5, 0x2000), 0x103C + 4 * len(unknown(5, 0x2000))
        change = [*load_number(6, immediate_form(0x03, 2, 8, 5, 0)), *load_number(7, place), store_form(2, 6, 0, 7)]
        lines = told((2, [*made, *beside(5), *change, jump_form(0, -4 * len(change) - 4)]), (2, 1))
        self.assertEqual([short(line) for line in lines if line[0] != " "], ["branches once", "loads once"])

    def test_whoever(self):
        """The thread is none of it, and the first one is told."""
        routine = [*unknown(), *beside(5), *call(Call.THREAD_EXIT, 0)]
        made = call(Call.CREATE, Label("routine"), 0, 0, 0)
        steps = len(routine) - 3
        lines = told((2, [*made, *made]), (4, steps), (5, steps), routines=[("routine", routine)])
        self.assertEqual((short(lines[0]), lines[0].split()[2], len(lines)), ("branches 2 times", "4", 2))

    def test_more_places(self):
        """A last line counts all others."""
        with patch("model.values.PLACES", 2):
            lines = [told((2, [*unknown(), *beside(5) * count])) for count in (2, 3, 4)]
        self.assertEqual([len(each) for each in lines], [4, 5, 5])
        self.assertEqual([each[-1] for each in lines[1:]], ["and once at other places", "and 2 times at other places"])

    def test_most_places(self):
        lines = told((2, [*unknown(), *beside(5) * 66]))
        self.assertEqual((len(lines), lines[-1]), (129, "and 2 times at other places"))

    def test_stretches(self):
        """One that begins later begins with all bits known."""
        turns = (2, unknown()), (2, beside(5)), (3, [*load(6), *beside(6)])
        self.assertEqual([len(told(*turns, first=first)) for first in (None, 4, 6)], [4, 0, 0])
        self.assertEqual(len(told(*turns, last=6)), 2)
        self.assertEqual(told((2, given()), (2, store(0, BLOCK)), (2, [*load(5, BLOCK), *beside(5)]), first=4), [])

    def test_after_errors(self):
        """After the line that stands in place of errors, too."""
        uses = [*unknown(), *beside(5)]
        for words, kinds in (([], ["events", "branches by a value that was never stored", "in a frame"]),
                             ([*load_number(6, 64), register_form(0, 3, 0, 0, 6)], ["no errors", "branches by a value that was never stored", "in a frame"])):
            recording = recording_of([(2, [*words, *uses])])
            for shown in both_shown(recording, None, (None, None), None, ()):
                self.assertEqual([kind_of_line(line) for line in shown.text.splitlines()], kinds)

    def test_kinds(self):
        kinds = {"1+2 thread 3 branches pc 00001000 by a value that was never stored, once": "branches by a value that was never stored",
                 "    in a frame that was made at 1+2 by thread 3": "in a frame", "    in a block that was taken at 1+2 by thread 3": "in a block that was taken"}
        self.assertEqual({line: kind_of_line(line) for line in kinds}, kinds)


class Varieties(WithKeys):
    def test_cases(self):
        """They come to each kind of line."""
        missing = {"called", "in a block that was taken", "in a frame", "and"}
        missing |= {f"{what} by a value that was never stored" for what in ("branches", "loads", "stores", "jumps", "calls")}
        for seed in range(1, 60):
            case = case_of("checks", seed)
            recording, _ = recorded(case.contents)
            missing -= {kind_of_line(line) for line in recording.show(Values(case.rows)).lines()}
            if not missing:
                break
        self.assertEqual(missing, set())
