"""Guests that read their input: to its end or not, by one thread or several, and in ways that come to each end of a drive."""
from model.abi import ALL_ONES, Call
from model.assembler import STOP, Branch, Jump, Label, Program, add, add_immediate, call_words, image_of, jump_register, load_number

EBREAK = 0x00100073
AT_END, BYTE = 6, 10  # registers: what the end of the input is told by, and the byte that was read
MUTEX = 0x8000


def image_of_program(program):
    return image_of(program.words())


def read_bytes(program, each):
    """Does something with each byte, and goes on at the label `end` behind the last one."""
    program.add([add_immediate(AT_END, 0, -1)])
    program.label("byte")
    program.add(call_words(Call.GETC) + [Branch(0, BYTE, AT_END, "end")] + each + [Jump("byte")])
    program.label("end")


def echo(chance):
    """Puts each byte."""
    program = Program()
    read_bytes(program, call_words(Call.PUTC))
    program.add(call_words(Call.EXIT, chance.choice([0, 0, 3])))
    return image_of_program(program)


def sums(chance):
    """Adds the bytes up, and puts the sum's lowest byte behind the last one."""
    program = Program()
    read_bytes(program, [add(8, 8, BYTE)])
    program.add([add_immediate(10, 8, 0)] + call_words(Call.PUTC) + call_words(Call.EXIT, 0))
    return image_of_program(program)


def sleeps(chance):
    """Puts each byte and sleeps for some ticks behind it."""
    program = Program()
    nap = call_words(Call.CLOCK) + [add_immediate(10, 10, chance.choice([1, 2, 700]))] + call_words(Call.SLEEP_UNTIL)
    read_bytes(program, call_words(Call.PUTC) + nap)
    program.add(call_words(Call.EXIT, 0))
    return image_of_program(program)


def races(chance):
    """Three threads put what they get, without a lock: the output hangs on their turns."""
    program = Program()
    for _ in range(2):
        program.add(call_words(Call.CREATE, Label("work"), 7, 0xF000, 0))
    program.add([Jump("work")])
    program.label("work")
    read_bytes(program, call_words(Call.PUTC))
    program.add([jump_register(0, 1, 0)])
    return image_of_program(program)


def takes_some(chance):
    """Puts so many bytes, or fewer where the input ends, and then exits, faults, locks itself out, or loops."""
    program = Program()
    program.add(load_number(9, chance.choice([1, 2, 64, 65, 300])))
    read_bytes(program, call_words(Call.PUTC) + [add_immediate(9, 9, -1), Branch(0, 9, 0, "end")])
    lock = call_words(Call.MUTEX_LOCK, MUTEX)
    program.add(chance.choice([call_words(Call.EXIT, ALL_ONES), [EBREAK], lock + lock, [STOP]]))
    return image_of_program(program)


def takes_none(chance):
    """Doesn't read: the queue fills, if there is so much."""
    lock = call_words(Call.MUTEX_LOCK, MUTEX)
    return image_of(chance.choice([[STOP & ALL_ONES], lock + lock, call_words(Call.EXIT, 0)]))


READERS = [echo, echo, races, sums, sleeps, takes_some, takes_none]
READS_ALL = (echo, races, sums, sleeps)
