"""Guests of random instructions; behind them the registers and some words of memory are put byte by byte."""
from model.abi import ALL_ONES, Call
from model.assembler import (STOP, Branch, Program, add_immediate, branch_form, call_words, image_of, immediate_form, jump_form,
                             load_byte, load_number, load_upper, register_form, store_form, store_word)

USED = [5, 6, 7, 8, 9, 10, 11, 12, 15, 31]
NEAR, EDGE = 20, 21  # registers with an address within memory, and with one at an edge
SCRATCH = 27
DATA, SAVED = 0xE000, 0xD800
ODD_WORDS = [0x100073, 0x200073, 0x10500073, 0x0000100F, 0x73 | 1 << 7, 0xC0001073, 0, ALL_ONES, 0x02000033, 0x40001013,
             0x40001033, 0x3003, 0x3023, 0x2063, 0x1067, 0x6003, 0x7003]


def random_word(chance):
    """Mostly an instruction that doesn't fault."""
    first, second, third = (chance.choice([0, 1] + USED) for _ in range(3))
    immediate = chance.choice([0, 1, 2, 3, 4, 8, -1, -4, 2047, -2048, chance.randrange(-2048, 2048)])
    base, offset = chance.choice([NEAR, NEAR, NEAR, EDGE, first]), chance.choice([0, 4, 8, 12, 2, 1, 3, immediate])
    upper = chance.choice([0, 1, 2, 0xFFFFF, 0x80000, 0xF, 0x10, chance.randrange(1 << 20)])
    funct7, funct3 = chance.choice([(0, number) for number in range(8)] + [(32, 0), (32, 5)])
    shift = chance.choice([(0, 1), (0, 5), (32, 5)])
    targets = chance.choice([[8, 8, 12, 16, 4, 6, 2, -4, -8], [8, 12, 4]])
    words = [
        (12, load_upper(first, upper)), (4, (chance.choice([0, 0, upper]) << 12) | first << 7 | 0x17),
        (22, immediate_form(0x13, chance.choice([0, 0, 2, 3, 4, 6, 7]), first, second, immediate)),
        (8, immediate_form(0x13, shift[1], first, second, shift[0] << 5 | chance.randrange(32))),
        (22, register_form(funct7, funct3, first, second, third)),
        (10, immediate_form(0x03, chance.choice([0, 1, 2, 4, 5]), second, base, offset)),
        (10, store_form(chance.choice([0, 1, 2]), second, offset, base)),
        (8, branch_form(chance.choice([0, 1, 4, 5, 6, 7]), first, second, chance.choice(targets))),
        (1, jump_form(first, chance.choice([4, 8, 12, 8, 6, -8, 2]))),
        (0.5, immediate_form(0x67, 0, second, chance.choice([1, NEAR, first]), immediate)),
        (1, immediate_form(0x0F, 0, second, third, immediate)), (0.5, chance.choice(ODD_WORDS)),
        (1, chance.getrandbits(32)), (3, add_immediate(first, second, immediate)),
    ]
    return chance.choices([word for _, word in words], [weight for weight, _ in words])[0] & ALL_ONES


def add_print(program, name, start, end):
    program.add(load_number(5, start) + load_number(6, end))
    program.label(name)
    program.add([load_byte(10, 0, 5)] + call_words(Call.PUTC) + [add_immediate(5, 5, 1), Branch(1, 5, 6, name)])


def computation(chance):
    """The image, how many steps lead to the random words, and how many these are."""
    program = Program()
    for register in USED:
        number = chance.choice([0, 1, ALL_ONES, 1 << 31, ALL_ONES >> 1, chance.getrandbits(32), chance.getrandbits(12), 31, 32])
        program.add(load_number(register, number))
    near = chance.choice([DATA, DATA, 0xFFFC, 0xFFF8, 0x10000, 0x1000, 0xFFC, 0]) if chance.random() < 0.3 else DATA
    edge = chance.choice([0xE010, 0xFFFE, 0x10000, 0xFFFFFFFC, 0, 4094, 0xE801])
    program.add(load_number(NEAR, near) + load_number(EDGE, edge))
    before, length = len(program.items), chance.choice([10, 30, 60])
    program.add([random_word(chance) for _ in range(length)])
    for register in range(1, 32):
        if register != SCRATCH:
            program.add(load_number(SCRATCH, SAVED) + [store_word(register, 4 * register, SCRATCH)])
    add_print(program, "registers", SAVED, SAVED + 128)
    add_print(program, "data", DATA, DATA + 32)
    program.add([STOP])
    return image_of(program.words()), before, length
