"""Texts of instructions, both ways; a word that is no instruction has none, and an instruction has one alone."""
import re

from model.abi import ALL_ONES
from model.assembler import branch_form, immediate_form, jump_form, load_upper, register_form, store_form
from model.processor import EBREAK, ECALL, Instruction

# Names by funct3, and for register forms and shifts by funct7 too.
BRANCHES = {0: "beq", 1: "bne", 4: "blt", 5: "bge", 6: "bltu", 7: "bgeu"}
LOADS = {0: "lb", 1: "lh", 2: "lw", 4: "lbu", 5: "lhu"}
STORES = {0: "sb", 1: "sh", 2: "sw"}
IMMEDIATES = {0: "addi", 2: "slti", 3: "sltiu", 4: "xori", 6: "ori", 7: "andi"}
SHIFTS = {(0, 1): "slli", (0, 5): "srli", (32, 5): "srai"}
REGISTERS = {(0, 0): "add", (32, 0): "sub", (0, 1): "sll", (0, 2): "slt", (0, 3): "sltu", (0, 4): "xor", (0, 5): "srl",
             (32, 5): "sra", (0, 6): "or", (0, 7): "and"}
LUI, AUIPC, JAL, JALR, BRANCH, LOAD, STORE, IMMEDIATE, REGISTER, FENCE = (
    0x37, 0x17, 0x6F, 0x67, 0x63, 0x03, 0x23, 0x13, 0x33, 0x0F)


def text_of(word):
    """The text of the instruction that the word means; None where it means none."""
    if word in (ECALL, EBREAK):
        return "ecall" if word == ECALL else "ebreak"
    fields = Instruction(word, 0, 0, 0)
    rd, rs1, rs2 = (f"x{word >> low & 31}" for low in (7, 15, 20))
    funct3, both = fields.funct3, (fields.funct7, fields.funct3)
    match word & 127:
        case 0x37 | 0x17 as opcode:
            return f"{'lui' if opcode == LUI else 'auipc'} {rd}, {word >> 12}"
        case 0x6F:
            return f"jal {rd}, {fields.jump_immediate()}"
        case 0x67 if funct3 == 0:
            return f"jalr {rd}, {fields.immediate()}({rs1})"
        case 0x63 if funct3 in BRANCHES:
            return f"{BRANCHES[funct3]} {rs1}, {rs2}, {fields.branch_immediate()}"
        case 0x03 if funct3 in LOADS:
            return f"{LOADS[funct3]} {rd}, {fields.immediate()}({rs1})"
        case 0x23 if funct3 in STORES:
            return f"{STORES[funct3]} {rs2}, {fields.store_immediate()}({rs1})"
        case 0x13 if funct3 in IMMEDIATES:
            return f"{IMMEDIATES[funct3]} {rd}, {rs1}, {fields.immediate()}"
        case 0x13 if both in SHIFTS:
            return f"{SHIFTS[both]} {rd}, {rs1}, {fields.shift_amount}"
        case 0x33 if both in REGISTERS:
            return f"{REGISTERS[both]} {rd}, {rs1}, {rs2}"
        case 0x0F if funct3 == 0:
            return f"fence {rd}, {rs1}, {word >> 20}"
    return None


REGISTER_PATTERN, NUMBER_PATTERN = r"x(\d+)", r"(-?\d+)"
SHAPES = {
    "r,n": re.compile(rf"{REGISTER_PATTERN}, {NUMBER_PATTERN}"),
    "r,n(r)": re.compile(rf"{REGISTER_PATTERN}, {NUMBER_PATTERN}\({REGISTER_PATTERN}\)"),
    "r,r,n": re.compile(rf"{REGISTER_PATTERN}, {REGISTER_PATTERN}, {NUMBER_PATTERN}"),
    "r,r,r": re.compile(rf"{REGISTER_PATTERN}, {REGISTER_PATTERN}, {REGISTER_PATTERN}"),
}


def forms():
    """By name: the shape of what stands behind it, and the word of the three numbers there."""
    table = {"lui": ("r,n", lambda d, i: load_upper(d, i)), "auipc": ("r,n", lambda d, i: load_upper(d, i) ^ LUI ^ AUIPC),
             "jal": ("r,n", jump_form), "jalr": ("r,n(r)", lambda d, i, s: immediate_form(JALR, 0, d, s, i)),
             "fence": ("r,r,n", lambda d, s, i: immediate_form(FENCE, 0, d, s, i))}
    for funct3, name in BRANCHES.items():
        table[name] = "r,r,n", lambda s, t, i, funct3=funct3: branch_form(funct3, s, t, i)
    for funct3, name in LOADS.items():
        table[name] = "r,n(r)", lambda d, i, s, funct3=funct3: immediate_form(LOAD, funct3, d, s, i)
    for funct3, name in STORES.items():
        table[name] = "r,n(r)", lambda t, i, s, funct3=funct3: store_form(funct3, t, i, s)
    for funct3, name in IMMEDIATES.items():
        table[name] = "r,r,n", lambda d, s, i, funct3=funct3: immediate_form(IMMEDIATE, funct3, d, s, i)
    for (funct7, funct3), name in SHIFTS.items():
        table[name] = "r,r,n", lambda d, s, i, high=funct7 << 5, funct3=funct3: (
            immediate_form(IMMEDIATE, funct3, d, s, high | i & 31))
    for (funct7, funct3), name in REGISTERS.items():
        table[name] = "r,r,r", lambda d, s, t, funct7=funct7, funct3=funct3: register_form(funct7, funct3, d, s, t)
    return table


FORMS = forms()


def word_of(text):
    """The word of just this text; None where it is no instruction's."""
    if text in ("ecall", "ebreak"):
        return ECALL if text == "ecall" else EBREAK
    name, _, rest = text.partition(" ")
    if name not in FORMS:
        return None
    shape, assemble = FORMS[name]
    found = SHAPES[shape].fullmatch(rest)
    if found is None:
        return None
    word = assemble(*map(int, found.groups())) & ALL_ONES
    return word if text_of(word) == text else None
