"""Cases of drives of guests with up to 64 threads, for more rounds than that: so each thread has rounds of its own."""
from cases.driven import UNFED, Feeding
from cases.drives import DrivesCase
from model.abi import Call
from model.assembler import Jump, Label, Program, add_immediate, call_words, image_of
from model.layout import Geometry
from model.plans import OWNERS, Options

MUTEX, CONDITION = 0x8000, 0x8010


class Chain:
    """A guest each of whose threads makes the next one, and then goes round in its own way."""

    def __init__(self, chance):
        self.chance, program, count = chance, Program(), chance.choice([2, 3, 7, 20, 63, 63])
        ways = chance.sample(self.all_ways(), chance.choice([1, 2, 4]))
        for number in range(count + 1):
            program.label(f"thread {number}")
            if number < count:
                program.add(call_words(Call.CREATE, Label(f"thread {number + 1}"), 0, 0, chance.choice([0, 1])))
            program.label(f"round {number}")
            program.add(chance.choice(ways)(number))
            program.add([Jump(f"round {number}")])
        self.image = image_of(program.words())

    def all_ways(self):
        return [self.computes, self.computes, self.puts, self.sleeps, self.sleeps, self.locks, self.waits, self.wakes, self.reads, self.ends]

    def computes(self, number):
        return [add_immediate(5, 5, 1)] * self.chance.choice([1, 5])

    def puts(self, number):
        return call_words(Call.PUTC, number)

    def sleeps(self, number):
        """Mostly till the next tick."""
        return [*call_words(Call.CLOCK), add_immediate(10, 10, self.chance.choice([1, 1, 1, 3])), *call_words(Call.SLEEP_UNTIL)]

    def locks(self, number):
        return [*call_words(Call.MUTEX_LOCK, MUTEX), *self.puts(number), *call_words(Call.MUTEX_UNLOCK, MUTEX)]

    def waits(self, number):
        return [*call_words(Call.MUTEX_LOCK, MUTEX), *call_words(Call.COND_WAIT, CONDITION, MUTEX), *call_words(Call.MUTEX_UNLOCK, MUTEX)]

    def wakes(self, number):
        return [*self.computes(number), *call_words(Call.COND_BROADCAST, CONDITION)]

    def reads(self, number):
        return [*call_words(Call.GETC), *self.puts(number)]

    def ends(self, number):
        return [*self.puts(number), *call_words(Call.THREAD_EXIT, 0)] if self.chance.random() < 0.3 else self.sleeps(number)


def rounds_case(chance, seed):
    """By turns of a few steps or of some more, in some drives or in one. Half of them have an input."""
    geometry = Geometry(16, chance.choice([1, 1, 1, 2, 3, 8]), chance.choice([4096, 65536]))
    options = Options(chance.choice([9, 30, 60]), chance.choice([1, 5, 50]), chance.choice([None, None, chance.randrange(2 ** 64)]))
    events, count = OWNERS * (2 * geometry.harts + 1), chance.choice([1, 2])
    drives = [Options(options.turn, options.rounds, options.seed, chance.randrange(events // 3, events)) for _ in range(count + 1)]
    feeding = chance.choice([UNFED, Feeding()])
    data = chance.randbytes(chance.choice([0, 1, 500])) if feeding.is_fed else b""
    return DrivesCase(geometry, Chain(chance).image, None, drives, data=data, feedings=[feeding] * len(drives))
