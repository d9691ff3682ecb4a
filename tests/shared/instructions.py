"""Words of RV32I instructions, and guests with labels.

Registers are numbers from 0 to 31. An immediate that doesn't fit its instruction is cut to it.
"""
import struct

START = 0x1000  # the address of a guest's first word
EXIT, PUTC, GETC, SLEEP_UNTIL, CREATE, JOIN, THREAD_EXIT, LOCK, UNLOCK = 1, 2, 3, 5, 10, 11, 13, 22, 25  # the numbers of calls
EQUAL, NOT_EQUAL = 0, 1  # what a branch compares
ECALL = 0x73


def register_form(funct7, funct3, destination, left, right):
    return funct7 << 25 | right << 20 | left << 15 | funct3 << 12 | destination << 7 | 0x33


def immediate_form(opcode, funct3, destination, source, immediate):
    return (immediate & 0xFFF) << 20 | source << 15 | funct3 << 12 | destination << 7 | opcode


def upper_form(destination, value):
    return (value & 0xFFFFF) << 12 | destination << 7 | 0x37


def store_form(funct3, source, base, offset):
    return (offset >> 5 & 0x7F) << 25 | source << 20 | base << 15 | funct3 << 12 | (offset & 0x1F) << 7 | 0x23


def branch_form(funct3, left, right, offset):
    high = (offset >> 12 & 1) << 31 | (offset >> 5 & 0x3F) << 25
    return high | right << 20 | left << 15 | funct3 << 12 | (offset >> 1 & 0xF) << 8 | (offset >> 11 & 1) << 7 | 0x63


def jump_form(destination, offset):
    high = (offset >> 20 & 1) << 31 | (offset >> 1 & 0x3FF) << 21
    return high | (offset >> 11 & 1) << 20 | (offset >> 12 & 0xFF) << 12 | destination << 7 | 0x6F


def parts_of(value):
    """What LUI and then ADDI take of a number of 32 bits."""
    upper = (value + 0x800) >> 12
    return upper, value - (upper << 12)


class Program:
    """The words of a guest, one behind the other from its first address on. A label may be used before it is set.

    `image` raises KeyError where one that is used was never set.
    """

    def __init__(self):
        self.words = []  # each a number, or a function from the word's place to it
        self.labels = {}  # the place of each

    def label(self, name):
        """Names the place of the next word."""
        self.labels[name] = len(self.words)

    def emit(self, word):
        self.words.append(word)

    def addi(self, rd, rs1, imm):
        self.emit(immediate_form(0x13, 0, rd, rs1, imm))

    def slli(self, rd, rs1, shamt):
        self.emit(immediate_form(0x13, 1, rd, rs1, shamt))

    def srli(self, rd, rs1, shamt):
        self.emit(immediate_form(0x13, 5, rd, rs1, shamt))

    def andi(self, rd, rs1, imm):
        self.emit(immediate_form(0x13, 7, rd, rs1, imm))

    def lui(self, rd, imm):
        self.emit(upper_form(rd, imm))

    def add(self, rd, rs1, rs2):
        self.emit(register_form(0, 0, rd, rs1, rs2))

    def sub(self, rd, rs1, rs2):
        self.emit(register_form(0x20, 0, rd, rs1, rs2))

    def sltu(self, rd, rs1, rs2):
        self.emit(register_form(0, 3, rd, rs1, rs2))

    def xor(self, rd, rs1, rs2):
        self.emit(register_form(0, 4, rd, rs1, rs2))

    def both(self, rd, rs1, rs2):
        self.emit(register_form(0, 7, rd, rs1, rs2))

    def load_word(self, rd, rs1):
        self.emit(immediate_form(0x03, 2, rd, rs1, 0))

    def load_byte(self, rd, rs1):
        """The byte at the address, without a sign."""
        self.emit(immediate_form(0x03, 4, rd, rs1, 0))

    def store_word(self, rs2, rs1):
        self.emit(store_form(2, rs2, rs1, 0))

    def beq(self, rs1, rs2, name):
        self.branch(EQUAL, rs1, rs2, name)

    def bne(self, rs1, rs2, name):
        self.branch(NOT_EQUAL, rs1, rs2, name)

    def branch(self, funct3, rs1, rs2, name):
        self.emit(lambda at: branch_form(funct3, rs1, rs2, self.offset(at, name)))

    def jump(self, name):
        self.emit(lambda at: jump_form(0, self.offset(at, name)))

    def returns(self):
        self.emit(immediate_form(0x67, 0, 0, 1, 0))

    def address(self, rd, name):
        """The address of a label, by two words."""
        self.emit(lambda at: upper_form(rd, parts_of(self.address_of(name))[0]))
        self.emit(lambda at: immediate_form(0x13, 0, rd, rd, parts_of(self.address_of(name))[1]))

    def constant(self, rd, value):
        """A number of 32 bits, always by two words."""
        upper, lower = parts_of(value)
        self.lui(rd, upper)
        self.addi(rd, rd, lower)

    def number(self, rd, value):
        """A number of 32 bits, by as few words as it takes."""
        upper, lower = parts_of(value)
        if not upper & 0xFFFFF:
            self.addi(rd, 0, lower)
            return
        self.lui(rd, upper)
        if lower:
            self.addi(rd, rd, lower)

    def ecall(self):
        self.emit(ECALL)

    def call(self, number):
        """Makes a call, whose arguments are there already."""
        self.addi(17, 0, number)
        self.ecall()

    def exit(self, status=0):
        """Ends the program."""
        self.addi(10, 0, status)
        self.call(EXIT)

    def put(self, register):
        """Puts the lowest byte of a register."""
        self.addi(10, register, 0)
        self.call(PUTC)

    def address_of(self, name):
        return START + 4 * self.labels[name]

    def offset(self, at, name):
        """The bytes from the word at a place to a label."""
        return 4 * (self.labels[name] - at)

    def image(self):
        """The bytes of the guest."""
        words = [word(at) if callable(word) else word for at, word in enumerate(self.words)]
        return struct.pack(f"<{len(words)}I", *words)
