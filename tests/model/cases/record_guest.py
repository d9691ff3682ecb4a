"""A guest that makes the calls that records in its memory tell, one after the other.

A record has six words: call number, four arguments, and whether the thread returns to x1 instead. A pointer, shared by all
threads, tells the next record; a call's two results are written over its first two arguments. The printing thread, id 2,
prints the records in the end, and a sum that the handlers make.
"""
import struct

from model.abi import PAGE, Call
from model.assembler import (STOP, START, Branch, Jump, Program, add, add_immediate, call_words, image_of, immediate_form,
                             jump_register, load_byte, load_number, load_upper, load_word, store_word)
from model.processor import ECALL

POINTER = 0x2000
RECORDS = 0x3000
RECORD = struct.Struct("<6I")
STEPS_TO_CALL = 12  # from the top over the call
STEPS_TO_TOP = 3  # from behind the call to the top


def add_loop(program):
    program.label("top")
    program.add([load_upper(20, POINTER >> 12), load_word(21, 0, 20), load_word(17, 0, 21)])
    program.add([load_word(register, 4 * register - 36, 21) for register in (10, 11, 12, 13)])
    program.add([load_word(24, 20, 21), add_immediate(22, 21, RECORD.size), store_word(22, 0, 20)])
    program.add([Branch(1, 24, 0, "return"), ECALL])
    program.label("behind the call")
    program.add([store_word(10, 4, 21), store_word(11, 8, 21), Jump("top")])
    program.label("return")
    program.add([jump_register(0, 1, 0)])


def add_routines(program):
    """Handlers that add to the sum and go on with records, one that returns, and a start that returns 5 more than x10."""
    for amount in (1, 2):
        program.label(f"handler {amount}")
        program.add([load_upper(20, POINTER >> 12), load_word(24, 16, 20), add(24, 24, 10)])
        program.add([add_immediate(24, 24, amount), store_word(24, 16, 20), Jump("top")])
    program.label("handler that returns")
    program.add([add_immediate(15, 10, 1), jump_register(0, 1, 0)])
    program.label("five more")
    program.add([add_immediate(10, 10, 5), jump_register(0, 1, 0)])


def add_dump(program):
    """Puts the low bytes and one higher byte of both results of every record, then the sum. putc leaves 0 in x10."""
    shift_down = immediate_form(0x13, 5, 10, 10, 16)
    program.label("dump")
    program.add(call_words(Call.SETCANCELSTATE, 1) + load_number(17, Call.PUTC))
    program.add([load_upper(20, POINTER >> 12), load_word(6, 0, 20), load_upper(5, RECORDS >> 12)])
    program.label("print a record")
    for load in (load_byte, load_word):
        for offset in (4, 8):
            program.add([load(10, offset, 5)] + ([shift_down] if load is load_word else []) + [ECALL])
    program.add([add_immediate(5, 5, RECORD.size), Branch(4, 5, 6, "print a record")])
    for offset in (16, 17):
        program.add([load_byte(10, offset, 20), ECALL])
    program.add([STOP])


DUMP_STEPS = 14  # for one record, at most


def assembled():
    program = Program()
    for add_part in (add_loop, add_routines, add_dump):
        add_part(program)
    return program.words(), program.labels


WORDS, LABELS = assembled()


def image_with(records):
    image = bytearray(RECORDS - START)
    code = image_of(WORDS)
    image[:len(code)] = code
    image[POINTER - START:POINTER - START + 4] = struct.pack("<I", RECORDS)
    return bytes(image) + b"".join(RECORD.pack(*record) for record in records)


def next_record(machine):
    """Which record the next call will take."""
    return (machine.memory.load(POINTER, 4) - RECORDS) // RECORD.size


def write_record(machine, index, record):
    at = RECORDS + RECORD.size * index - PAGE
    machine.memory.bytes[at:at + RECORD.size] = RECORD.pack(*record)
