"""Words of instructions, and programs with labels."""
import struct
from dataclasses import dataclass

from model.abi import ALL_ONES
from model.processor import ECALL, sign_extended

START = 0x1000


def immediate_form(opcode, funct3, destination, source, immediate):
    return (immediate & 0xFFF) << 20 | source << 15 | funct3 << 12 | destination << 7 | opcode


def add_immediate(destination, source, immediate):
    return immediate_form(0x13, 0, destination, source, immediate)


def load_word(destination, offset, base):
    return immediate_form(0x03, 2, destination, base, offset)


def load_byte(destination, offset, base):
    return immediate_form(0x03, 4, destination, base, offset)


def jump_register(destination, source, offset):
    return immediate_form(0x67, 0, destination, source, offset)


def load_upper(destination, value):
    return (value & 0xFFFFF) << 12 | destination << 7 | 0x37


def store_form(funct3, source, offset, base):
    return (offset >> 5 & 127) << 25 | source << 20 | base << 15 | funct3 << 12 | (offset & 31) << 7 | 0x23


def store_word(source, offset, base):
    return store_form(2, source, offset, base)


def register_form(funct7, funct3, destination, left, right):
    return funct7 << 25 | right << 20 | left << 15 | funct3 << 12 | destination << 7 | 0x33


def add(destination, left, right):
    return register_form(0, 0, destination, left, right)


def branch_form(funct3, left, right, offset):
    high = (offset >> 12 & 1) << 31 | (offset >> 5 & 63) << 25
    return high | right << 20 | left << 15 | funct3 << 12 | (offset >> 1 & 15) << 8 | (offset >> 11 & 1) << 7 | 0x63


def jump_form(destination, offset):
    high = (offset >> 20 & 1) << 31 | (offset >> 1 & 1023) << 21 | (offset >> 11 & 1) << 20
    return high | (offset >> 12 & 255) << 12 | destination << 7 | 0x6F


@dataclass(frozen=True)
class Label:
    """The address of a label, as a call's argument."""
    name: str


@dataclass(frozen=True)
class LoadLabel:
    """Two words: the address of a label into a register."""
    register: int
    label: str


@dataclass(frozen=True)
class Branch:
    """A branch to a label."""
    funct3: int
    left: int
    right: int
    label: str


@dataclass(frozen=True)
class Jump:
    """A jump to a label, which leaves the address behind it in a register."""
    label: str
    link: int = 0


STOP = jump_form(0, 0)  # a jump to itself


def load_number(register, value):
    low = sign_extended(value, 12)
    if sign_extended(value, 32) == low:
        return [add_immediate(register, 0, low)]
    upper = [load_upper(register, (value - low) >> 12)]
    return upper + ([add_immediate(register, register, low)] if low else [])


def call_words(number, *arguments):
    items = []
    for register, argument in enumerate(arguments, 10):
        if isinstance(argument, Label):
            items.append(LoadLabel(register, argument.name))
        else:
            items += load_number(register, argument)
    return items + load_number(17, number) + [ECALL]


def image_of(words):
    return struct.pack(f"<{len(words)}I", *words)


def length_of(items):
    return sum(8 if isinstance(item, LoadLabel) else 4 for item in items)


class Program:
    """Items one behind the other from the first address on; a label may be used before it is set."""

    def __init__(self):
        self.items, self.labels = [], {}
        self.end = START

    def label(self, name):
        self.labels[name] = self.end

    def add(self, items):
        self.items += items
        self.end += length_of(items)

    def words(self):
        words = []
        for item in self.items:
            words += self.words_of(item, START + 4 * len(words))
        return [word & ALL_ONES for word in words]

    def words_of(self, item, here):
        match item:
            case LoadLabel(register, label):
                low = sign_extended(self.labels[label], 12)
                return [load_upper(register, (self.labels[label] - low) >> 12), add_immediate(register, register, low)]
            case Branch(funct3, left, right, label):
                return [branch_form(funct3, left, right, self.labels[label] - here)]
            case Jump(label, link):
                return [jump_form(link, self.labels[label] - here)]
        return [item]
