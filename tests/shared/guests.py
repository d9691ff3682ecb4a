"""Guests that several tests run, and what they put."""
from shared.instructions import CREATE, GETC, JOIN, LOCK, PUTC, SLEEP_UNTIL, UNLOCK, Program

MASK = 0xFFFFFFFF
ALPHABET = b"ABCDEFGHIJKLMNOPQRSTUVWXYZ\n"
LETTERS = 4  # threads that put a letter each, in any order
CONTENDERS = 3  # threads that put their letters again and again
CROWD = 6  # threads whose letters come in more orders than have rows


def generator(seed):
    """The numbers of 32 bits that the generator xorshift32 makes of a seed other than 0."""
    number = seed
    while True:
        number ^= number << 13 & MASK
        number ^= number >> 17
        number ^= number << 5 & MASK
        yield number


def draw(program):
    """The next number of the same generator in x5; x6 is used."""
    for shift, count in ((program.slli, 13), (program.srli, 17), (program.slli, 5)):
        shift(6, 5, count)
        program.xor(5, 5, 6)


def count_down(program, register, name):
    """Goes back to a label until a register is 0."""
    program.addi(register, register, -1)
    program.bne(register, 0, name)


def join_threads(program, threads):
    """Creates threads, each of the label where it begins and an argument, with a stack of a page each, and joins them all."""
    for number, (label, argument) in enumerate(threads):
        program.address(10, label)
        program.number(11, argument)
        program.number(12, 0x8000 + 0x1000 * number)
        program.call(CREATE)
    for number in range(len(threads)):
        program.number(10, 2 + number)
        program.call(JOIN)


def putting(seed, count, between):
    """Puts so many bytes (2^32, if none), each the least of the generator's next number, with so many rounds of two steps before each."""
    program = Program()
    program.constant(5, seed)
    program.constant(8, count)
    program.label("round")
    program.constant(7, between)
    program.label("between")
    count_down(program, 7, "between")
    draw(program)
    program.put(5)
    count_down(program, 8, "round")
    program.exit()
    return program.image()


def put_by(seed, count):
    """The bytes that `putting` puts."""
    numbers = generator(seed)
    return bytes(next(numbers) & 0xFF for _ in range(count))


def adding_input():
    """Reads its input to the end, five steps a byte, and puts the least byte of the sum."""
    program = Program()
    program.addi(6, 0, -1)
    program.addi(8, 0, 0)
    program.label("byte")
    program.call(GETC)
    program.beq(10, 6, "end")
    program.add(8, 8, 10)
    program.jump("byte")
    program.label("end")
    program.put(8)
    program.exit()
    return program.image()


def sleeping(waits, ticks):
    """Sleeps so often for so many ticks, and then ends."""
    program = Program()
    program.constant(5, ticks & MASK)
    program.addi(6, 0, ticks >> 32)
    program.addi(8, 0, waits)
    # x18 and x19 are the moment of the last sleep's end
    program.addi(18, 0, 0)
    program.addi(19, 0, 0)
    program.label("wait")
    program.add(18, 18, 5)
    program.sltu(7, 18, 5)
    program.add(19, 19, 6)
    program.add(19, 19, 7)
    program.add(10, 18, 0)
    program.add(11, 19, 0)
    program.call(SLEEP_UNTIL)
    count_down(program, 8, "wait")
    program.exit()
    return program.image()


def alphabet():
    """Puts ALPHABET over and over, so that each byte of its output is known by its offset."""
    program = Program()
    program.label("line")
    program.addi(9, 0, ord("A"))
    program.addi(8, 0, ord("Z") + 1)
    program.label("letter")
    program.put(9)
    program.addi(9, 9, 1)
    program.bne(9, 8, "letter")
    program.addi(10, 0, ord("\n"))
    program.call(PUTC)
    program.jump("line")
    return program.image()


def putting_memory(pages):
    """Puts each byte of its memory, which has so many pages, from its own first word on, and ends."""
    program = Program()
    program.lui(5, 1)
    program.lui(6, pages)
    program.label("byte")
    program.load_byte(10, 5)
    program.call(PUTC)
    program.addi(5, 5, 1)
    program.bne(5, 6, "byte")
    program.exit()
    program.label("end")
    program.jump("end")
    return program.image()


def echoing():
    """Puts each byte of its input, and ends by `exit 0` at the input's end."""
    program = Program()
    program.addi(6, 0, -1)
    program.label("byte")
    program.call(GETC)
    program.beq(10, 6, "end")
    program.call(PUTC)
    program.jump("byte")
    program.label("end")
    program.exit()
    return program.image()


def letters(end=Program.exit):
    """A guest whose threads put a letter each, in any order, and then it comes to an end."""
    program = Program()
    join_threads(program, [("letter", ord("a") + number) for number in range(LETTERS)])
    end(program)
    program.label("letter")
    program.call(PUTC)
    program.returns()
    return program.image()


def contending(rounds):
    """Threads that add to a word under a mutex and to another one without it, and put a letter, so many times (2^32, if none); then it ends."""
    program = Program()
    join_threads(program, [("contend", ord("a") + number) for number in range(CONTENDERS)])
    program.exit()
    program.label("contend")  # with the mutex at 3000, and the words at 3010 and 3020
    program.addi(13, 10, 0)
    program.constant(8, rounds)
    program.lui(9, 3)
    program.label("round")
    for call, offset in ((LOCK, 0x10), (UNLOCK, 0x20)):
        program.addi(10, 9, 0)
        program.call(call)
        program.addi(5, 9, offset)
        program.load_word(6, 5)
        program.addi(6, 6, 1)
        program.store_word(6, 5)
    program.put(13)
    count_down(program, 8, "round")
    program.returns()
    return program.image()


def crowded():
    """Threads that put a letter each, in any order, and two of them take two mutexes before, in opposite orders."""
    program = Program()
    join_threads(program, [("crosses" if number < 2 else "letter", number) for number in range(CROWD)])
    program.exit()
    program.label("crosses")  # the mutexes at 2000 and 2004, or these turned round
    program.addi(13, 10, 0)
    program.slli(9, 10, 2)
    program.number(8, 0x2000)
    program.add(10, 8, 9)
    program.call(LOCK)
    program.addi(10, 8, 4)
    program.sub(10, 10, 9)
    program.call(LOCK)
    program.addi(10, 8, 4)
    program.sub(10, 10, 9)
    program.call(UNLOCK)
    program.add(10, 8, 9)
    program.call(UNLOCK)
    program.addi(10, 13, 0)
    program.label("letter")
    program.addi(10, 10, ord("a"))
    program.call(PUTC)
    program.returns()
    return program.image()
