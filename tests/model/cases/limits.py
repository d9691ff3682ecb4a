"""Cases that fill what is bounded: counts, tables, the input queue, the held output, a batch, and the journal."""
from model.abi import Call
from model.assembler import Branch, Program, STOP, add_immediate, call_words, image_of, jump_form, load_number
from model.layout import Geometry
from model.processor import ECALL
from model.switches import SWITCHES

FIRST = 0x2000  # the address of the first object
INPUT = b"in " + b"4a" * 64  # 66 bytes of events
ECHO = call_words(Call.GETC) + call_words(Call.PUTC) + [jump_form(0, -16)]
PUTS_FOR_EVER = call_words(Call.PUTC, 65) + [jump_form(0, -8)]
RECORD = [b"place 0 1"] + [b"run 0 65535"] * 6 + [b"commit", b"run 0 2000", b"commit"]
LITTLE = [b"tick 1", b"eof", b"in 41", b"place 0 1", b"run 0 3", b"auto 0 5", b"commit", b"in " + b"41" * 9]
RWLOCKS = [Call.RWLOCK_RDLOCK, Call.RWLOCK_TRYRDLOCK, Call.RWLOCK_WRLOCK, Call.RWLOCK_TRYWRLOCK, Call.RWLOCK_UNLOCK]
MUTEXES = [Call.MUTEX_LOCK, Call.MUTEX_TRYLOCK, Call.MUTEX_UNLOCK, Call.MUTEX_DESTROY]


def put_results():
    return call_words(Call.PUTC) + [add_immediate(10, 11, 0), ECALL]


def repeat(program, times, words):
    program.add(load_number(5, times))
    program.label("repeat")
    program.add(words + [add_immediate(5, 5, -1), Branch(1, 5, 0, "repeat")])


def end_of_program(program, calls):
    for call in calls:
        program.add(call_words(*call) + put_results())
    program.add([STOP])
    return image_of(program.words())


def count_limit(chance):
    """One recursive mutex or one read lock is taken as often as it can be counted, and then in every way."""
    program = Program()
    if chance.random() < 0.5:
        program.add(call_words(Call.MUTEX_INIT, FIRST, 1))
        repeat(program, 65535 - chance.choice([0, 1]), call_words(Call.MUTEX_LOCK, FIRST))
        calls = [(number, FIRST) for number in MUTEXES] + [(Call.COND_TIMEDWAIT, 0x3000, FIRST, 0, 0)]
        calls += [(Call.MUTEX_TIMEDLOCK, FIRST, 0, 1 << 31)]
    else:
        repeat(program, 65535 - chance.choice([0, 1]), call_words(Call.RWLOCK_RDLOCK, FIRST))
        calls = [(number, FIRST) for number in RWLOCKS]
    return Geometry(16, 1, 65536), end_of_program(program, chance.choices(calls, k=12)), [RECORD]


def full_table(chance):
    """A table is filled, and then calls are made on those within and on others."""
    tables = [(Call.MUTEX_INIT, 256, [*MUTEXES, Call.MUTEX_INIT]), (Call.MUTEX_LOCK, 256, [*MUTEXES, Call.MUTEX_INIT]),
              (Call.RWLOCK_WRLOCK, 64, RWLOCKS), (Call.BARRIER_INIT, 64, [Call.BARRIER_INIT, Call.BARRIER_DESTROY])]
    number, size, calls = chance.choice(tables)
    program = Program()
    program.add(load_number(6, FIRST) + load_number(11, 1))
    call = [add_immediate(10, 6, 0), *load_number(17, number), ECALL, add_immediate(6, 6, 4)]
    repeat(program, size - chance.choice([0, 1]), call)
    addresses = [FIRST, FIRST + 4, FIRST + 4 * size - 4, FIRST + 4 * size, FIRST + 4 * size + 4]
    made = [(chance.choice(calls), chance.choice(addresses), chance.choice([0, 1, 2, 3])) for _ in range(20)]
    return Geometry(16, 1, 65536), end_of_program(program, made), [RECORD]


def full_keys(chance):
    """All keys are made, and then some are made, deleted, set and asked for, those behind the last too."""
    program = Program()
    repeat(program, 32 - chance.choice([0, 1]), call_words(Call.KEY_CREATE, 0))
    keys = [0, 1, 30, 31, 32, 33]
    made = [chance.choice([(Call.KEY_CREATE, chance.choice([0, 4, 2])), (Call.KEY_DELETE, chance.choice(keys)),
                           (Call.SETSPECIFIC, chance.choice(keys), 7), (Call.GETSPECIFIC, chance.choice(keys))]) for _ in range(30)]
    return Geometry(16, 1, 65536), end_of_program(program, made), [RECORD]


def long_run(chance):
    """Runs of more steps than a plain one has; at times they put all that a run may put."""
    counts = [65535, 65536, 65537, 70000, 100000] * 4 + [1000000]
    lines = [b"runlong 0 %d" % chance.choice(counts) for _ in range(2)] + [b"runlong 0 1000001", b"commit"]
    image = image_of(chance.choice([PUTS_FOR_EVER, [STOP], [STOP]]))
    return Geometry(16, 1, 65536), image, [[b"place 0 1"] + lines + [b"checkpoint"] + lines, lines]


def input_queue(chance):
    """The queue is filled, read a little, and closed."""
    filled = [INPUT] * 20 + [b"commit"]
    some = [chance.choice([b"in 41", b"in 4141414141", b"run 0 40", b"commit", b"auto 0 9", b"tick 1"]) for _ in range(20)]
    rest = [b"eof", b"eof", b"in 41"] + [b"run 0 65535", b"commit"] * 6
    return Geometry(16, 1, 65536), image_of(ECHO), [filled * 3 + [INPUT] * 3 + [b"place 0 1"] + some + rest]


def held_output(chance):
    """Runs are refused where held output might not be held, also after a recovery, which holds the last of it."""
    lives = []
    for _ in range(4):
        lengths = [b"run 0 %d" % chance.choice([65535, 65535, 65535, 200, 3000, 3]) for _ in range(chance.choice([8, 20, 30]))]
        lives.append([b"place 0 1"] + lengths + [b"commit"] * chance.choice([0, 1, 1]) + [b"run 0 65535", b"run 0 77"])
    return Geometry(16, 1, 65536), image_of(PUTS_FOR_EVER), lives


def full_batch(chance):
    """A batch is filled but for a few bytes."""
    filled = [INPUT] * 61 + [b"in " + b"41" * chance.randrange(50, 65)]
    return Geometry(16, 1, 8192), image_of(ECHO), [filled + chance.choices(LITTLE, k=10) + [b"commit"] + LITTLE]


def full_journal(chance):
    """The journal is filled but for up to 24 bytes, and what is left is used in this life and the next."""
    left = 4095 - chance.randrange(24)
    lines = []
    for inputs in (20, 20, 19):
        lines += [INPUT] * inputs + [b"commit"]
        left -= 3 + 66 * inputs
    third = (left - 3) // 3
    lines += [b"in " + b"4e" * (length - 2) for length in (third, third, left - 3 - 2 * third)] + [b"commit"]
    some = chance.choices(LITTLE, k=8)
    return Geometry(16, 1, 4096), image_of(ECHO), [lines, some + [b"commit"] + some, LITTLE]


def late_clock(chance):
    """Ticks as long as they can be."""
    words = (call_words(Call.CLOCK) + put_results()) * 20 + [STOP]
    return Geometry(16, 1, 4096), image_of(words), [[b"place 0 1"] + [b"tick 4294967295", b"run 0 7"] * 10 + [b"commit"]]


SHAPES = [count_limit, full_table, input_queue, held_output, full_batch, full_journal, full_journal, late_clock]


def limit_case(chance, seed):
    shapes = SHAPES + [full_keys] * SWITCHES.keys + [long_run] * SWITCHES.long_runs
    geometry, image, lives = shapes[seed % len(shapes)](chance)
    return geometry, image, [b"".join(line + b"\n" for line in life) for life in lives]
