"""Cases of orders of locks: guests whose threads take several locks in many orders, under common ones and in every way, and whose stacks lead to
callers."""
from dataclasses import dataclass, field

from cases.glances import RacesCase
from cases.histories import drawn_stretches
from cases.streams import joined
from model.abi import Call
from model.assembler import (START, Branch, Jump, Label, Program, add_immediate, call_words, image_of, jump_register, load_number, register_form,
                             store_word)
from model.callers import Up
from model.layout import Geometry, format_disk
from model.lines import serve_disk
from model.processor import ECALL

MUTEXES, LOCKS = [0x2000, 0x2004, 0x2008, 0x2009, 0x3000], [0x5000, 0x2004, 0x6000]  # at one address there is a lock of each kind
OF_KIT = [5, 4095]
CONDITIONS = [0x7000, 0x7004]
STACK = range(0x8000, 0x8100, 4)
TAKES = {True: [Call.MUTEX_LOCK] * 8 + [Call.MUTEX_TRYLOCK, Call.MUTEX_TIMEDLOCK],
         False: [Call.RWLOCK_RDLOCK] * 5 + [Call.RWLOCK_WRLOCK] * 4 + [Call.RWLOCK_TRYRDLOCK, Call.RWLOCK_TRYWRLOCK]}
GIVES = {True: Call.MUTEX_UNLOCK, False: Call.RWLOCK_UNLOCK}
ARGUMENTS = 20, 21, 22  # registers with the locks of a routine
BACK = 5  # the register by which a routine returns
LONG = 4000  # steps of a turn that ends where the thread sleeps
SHAPES = ["drawn"] * 12 + ["ring", "ring", "deep", "places", "places"]
FULL = 24  # of so many seeds one has as many orders as there is room for


class Locker:
    """Each thread goes through sections, behind each of which it sleeps for a tick; so in one turn it goes through one, mostly. `lines` are the turns."""

    def __init__(self, chance, shape):
        self.chance, self.program = chance, Program()
        self.count = {"ring": chance.choice([2, 3, 4, 7, 8, 9]), "full": 2, "places": 2}.get(shape, chance.choice([2, 2, 3, 4]))
        self.rounds = {"ring": 2, "full": 1, "places": 1}.get(shape, chance.choice([4, 8, 12]))
        self.mutexes = chance.sample(MUTEXES, chance.choice([2, 2, 3, 5])) + chance.choice([[], OF_KIT])
        self.locks = chance.sample(LOCKS, chance.choice([1, 2, 3]))
        self.mutex_share = chance.choice([0.3, 0.6, 0.9, 1])
        self.odd_share = chance.choice([0, 0.1, 0.3])
        self.cut_share = chance.choice([0, 0.1, 0.3])
        self.gate = self.lock() if chance.random() < 0.4 else None
        self.pairs = chance.choice([60, 64, 66, 70])  # of locks that are taken in both orders
        self.routines = [f"routine {number}" for number in range(chance.choice([1, 2, 4]))]
        self.add_main()
        for number in range(self.count):
            self.program.label(f"thread {number}")
            self.program.add(load_number(8, chance.choice(STACK)) if chance.random() < 0.5 else [])
            for place in range(self.rounds):
                self.add_section(getattr(self, f"{shape}_section")(number, place), place + 1)
            self.program.add(chance.choice([call_words(Call.SLEEP_UNTIL, 0, 2), []]) + call_words(Call.THREAD_EXIT, 0))
        self.add_routines()
        words = self.program.words()
        self.image, self.rows = image_of(words), self.drawn_rows(len(words))
        self.lines = self.drawn_lines()

    def add_main(self):
        """Words of stacks, kinds of mutexes, and the threads; then at times it makes another one, or cancels one, again and again."""
        chance = self.chance
        for _ in range(chance.choice([0, 20, 40])):
            self.program.add([*load_number(3, chance.choice(STACK)), *load_number(4, chance.choice([self.code, self.code, lambda: chance.choice(STACK)])()),
                              store_word(4, 0, 3)])
        for mutex in self.mutexes:
            self.program.add(call_words(Call.MUTEX_INIT, mutex, chance.choice([0, 0, 1, 1, 2])))
        for number in range(self.count):
            self.program.add(call_words(Call.CREATE, Label(f"thread {number}"), 0, chance.choice(STACK), chance.choice([0, 1])))
        for place in range(self.rounds):
            self.add_section(self.section_of_main(), place + 1)
        self.program.add(call_words(Call.THREAD_EXIT, 0))

    def section_of_main(self):
        chance, how = self.chance, self.chance.random()
        if how < 0.1:
            return [(Call.CANCEL, chance.randint(2, self.count + 1))]
        if how < 0.2:
            return [(Call.CREATE, Label(f"thread {chance.randrange(self.count)}"), 0, chance.choice(STACK), 1)]
        return self.drawn_section(0, 0) if how < 0.4 else []

    def code(self):
        """Behind a call, mostly."""
        return START + 4 * self.chance.randint(1, 300) + self.chance.choice([0] * 30 + [2])

    def lock(self):
        """Whether it is a mutex, and its address."""
        is_mutex = self.chance.random() < self.mutex_share
        return is_mutex, self.chance.choice(self.mutexes if is_mutex else self.locks)

    def take(self, lock):
        number = self.chance.choice(TAKES[lock[0]])
        return (number, lock[1], *([self.chance.choice([1, 3, 9, 50]), 0] if number == Call.MUTEX_TIMEDLOCK else []))

    def give(self, lock):
        return GIVES[lock[0]], lock[1]

    def drawn_section(self, number, place):
        """One that is plain mostly; or with a wait, or with a lock that is made or destroyed, or one that is left."""
        chance = self.chance
        if chance.random() < self.odd_share:
            return chance.choice([self.waiting_section, self.waking_section, self.making_section, self.nesting_section])()
        if chance.random() < 0.3:
            mutexes = [0x2100, 0x2104, *self.mutexes]
            return [(chance.choice(self.routines), *(chance.choices if chance.random() < 0.05 else chance.sample)(mutexes, k=len(ARGUMENTS)))]
        locks = [self.lock() for _ in range(chance.choice([2, 2, 2, 3, 4]))]
        locks = [self.gate] * (self.gate is not None and chance.random() < 0.6) + locks
        locks = locks if chance.random() < 0.1 else list(dict.fromkeys(locks))
        return [*map(self.take, locks), *self.given(locks)]

    def given(self, locks):
        """In any order; now and then one is left."""
        gives = [self.give(lock) for lock in locks]
        if self.chance.random() < 0.5:
            self.chance.shuffle(gives)
        return gives[1:] if self.chance.random() < 0.03 else gives

    def waiting_section(self):
        chance, other, mutex, condition = self.chance, self.lock(), self.chance.choice(self.mutexes), self.chance.choice(CONDITIONS)
        wait = (Call.COND_TIMEDWAIT, condition, mutex, chance.choice([0, 1, 3, 5, 9]), 0) if chance.random() < 0.7 else (Call.COND_WAIT, condition, mutex)
        taken = [self.take(other), (Call.MUTEX_LOCK, mutex)]
        if chance.random() < 0.3:
            taken.reverse()
        nested = [(Call.MUTEX_LOCK, mutex)] * (chance.random() < 0.2)
        return [*taken, *nested, wait, *[(Call.MUTEX_UNLOCK, mutex) for _ in nested], *self.given([other, (True, mutex)])]

    def waking_section(self):
        wake = self.chance.choice([Call.COND_SIGNAL, Call.COND_BROADCAST]), self.chance.choice(CONDITIONS)
        if self.chance.random() < 0.5:
            return [wake]
        lock = self.lock()
        return [self.take(lock), wake, *self.given([lock])]

    def making_section(self):
        is_mutex, address = self.lock()
        if is_mutex:
            return [(Call.MUTEX_DESTROY, address)] * self.chance.choice([0, 1]) + [(Call.MUTEX_INIT, address, self.chance.choice([0, 1]))] * self.chance.choice([0, 1])
        return [(self.chance.choice([Call.RWLOCK_INIT, Call.RWLOCK_DESTROY]), address)]

    def nesting_section(self):
        """A lock is taken again, under another one."""
        again, other = self.lock(), self.lock()
        return [self.take(again), self.take(other), self.take(again), *self.given([again, other]), self.give(again)]

    def ring_section(self, number, place):
        """Each thread takes its own lock and then the next one's, at the second time under a common one."""
        first, second = (0x2100 + 4 * (one % self.count) for one in (number, number + 1))
        gate = self.gate if place and self.gate and self.gate[1] >= 4096 else None
        locks = [gate] * (gate is not None) + [(True, first), (True, second)]
        return [*map(self.take, locks), *map(self.give, reversed(locks))]

    def deep_section(self, number, place):
        """At times with about as many locks as one thread may hold."""
        if self.chance.random() < 0.6:
            return self.drawn_section(number, place)
        locks = [(True, 0x2100 + 4 * one) for one in range(self.chance.choice([14, 15, 16, 17]))] + [self.lock() for _ in range(self.chance.choice([0, 1, 2]))]
        self.chance.shuffle(locks)
        return [*map(self.take, locks), *self.given(locks)]

    def places_section(self, number, place):
        """More cycles than have lines, each at places of its own; some at those of another one."""
        found = []
        for one in range(self.pairs):
            locks = [(True, 0x2100 + 8 * one), (True, 0x2104 + 8 * one)]
            locks = locks[::-1] if number else locks
            found += [*((Call.MUTEX_LOCK, address) for _, address in locks), *map(self.give, reversed(locks))]
        return found

    def full_section(self, number, place):
        """The second thread takes two locks in the other order; the first one takes many, each under one of many."""
        if number:
            return [(Call.MUTEX_LOCK, 0x2104), (Call.MUTEX_LOCK, 0x2100), (Call.MUTEX_UNLOCK, 0x2100), (Call.MUTEX_UNLOCK, 0x2104)]
        return [("loops", self.chance.choice([45, 46]), self.chance.choice([44, 45, 46]))]

    def add_section(self, calls, moment):
        """Then it sleeps."""
        for call in calls:
            if call[0] == "loops":
                self.add_loops(*call[1:])
            elif isinstance(call[0], str):
                words = [word for register, lock in zip(ARGUMENTS, call[1:]) for word in load_number(register, lock)]
                self.program.add([*words, Jump(call[0], BACK)])
            else:
                self.program.add(self.called(call_words(*call)))
        self.program.add(call_words(Call.SLEEP_UNTIL, moment, 0))

    def called(self, words):
        """By a routine, or where it stands, behind any address."""
        if self.chance.random() < 0.5:
            return [*words[:-1], Jump("take", 1)]
        return [*(load_number(1, self.code()) if self.chance.random() < 0.6 else []), *words]

    def add_loops(self, outer, inner):
        """So many locks, and under each so many others."""
        add = self.program.add
        lock = lambda number, register: add([add_immediate(10, register, 0), *load_number(17, number), ECALL])
        add([*load_number(20, 0x2400), *load_number(22, 0x2400 + 4 * outer), *load_number(24, 0x2104 + 4 * inner)])
        self.program.label("outer")
        lock(Call.MUTEX_LOCK, 20)
        add(load_number(23, 0x2104))
        self.program.label("inner")
        lock(Call.MUTEX_LOCK, 23)
        lock(Call.MUTEX_UNLOCK, 23)
        add([add_immediate(23, 23, 4), Branch(1, 23, 24, "inner")])
        lock(Call.MUTEX_UNLOCK, 20)
        add([add_immediate(20, 20, 4), Branch(1, 20, 22, "outer")])
        last = [(Call.MUTEX_LOCK, 0x2100), (Call.MUTEX_LOCK, 0x2104), (Call.MUTEX_UNLOCK, 0x2104), (Call.MUTEX_UNLOCK, 0x2100)]
        for call in last:
            add(call_words(*call))

    def add_routines(self):
        """Those of all threads: the one that makes a call, and some that take the mutexes in some registers."""
        chance = self.chance
        self.program.label("take")
        self.program.add([ECALL, jump_register(0, 1, 0)])
        for name in self.routines:
            self.program.label(name)
            taken = chance.sample(ARGUMENTS, chance.choice([2, 2, 3]))
            given = chance.sample(taken, len(taken))
            for number, register in [*((Call.MUTEX_LOCK, one) for one in taken), *((Call.MUTEX_UNLOCK, one) for one in given)]:
                self.program.add(self.called([add_immediate(10, register, 0), *load_number(17, number), ECALL]))
            self.program.add([jump_register(0, BACK, 0)])

    def drawn_rows(self, length):
        """With gaps; the routine that makes a call has its return address in its register, and it is no caller."""
        chance, rows, at, take = self.chance, [], START, self.program.labels["take"]
        while at < START + 4 * length:
            end = min(at + 4 * chance.choice([1, 5, 16, 40]), START + 4 * length)
            if at < take < end:
                end = take
            end = take + 8 if at == take else end
            back = None if at == take else chance.choice([4, 4, 8, 12])
            if chance.random() < 0.9:
                rows.append(Up(at, end - at, chance.choice([2, 2, 8]), chance.choice([0, 4, 8, 16]), back, chance.choice([None, None, 8, 12])))
            at = end
        return rows if chance.random() < 0.5 else []

    def drawn_lines(self):
        """In each round each thread has a turn, in any order."""
        chance, lines = self.chance, [b"place 0 1", b"run 0 %d" % LONG]
        for _ in range(self.rounds + 3):
            lines.append(b"tick 1")
            threads = range(1, self.count + 3)
            for number in chance.sample(threads, len(threads)):
                steps = chance.randint(1, 60) if chance.random() < self.cut_share else 60000
                lines += [b"place 0 %d" % number, b"run 0 %d" % steps]
        return lines


@dataclass
class LockersCase(RacesCase):
    """With the rows of its names; none where there are no names."""
    rows: list = field(default_factory=list)


def cycles_case(chance, seed):
    shape = "full" if seed % FULL == 0 else chance.choice(SHAPES)
    guest = Locker(chance, shape)
    disk = format_disk(Geometry(16, 1, 65536), guest.image)
    serve_disk(disk, joined(chance, [*guest.lines, b"commit"]))
    stretches = drawn_stretches(chance, disk)
    return LockersCase(bytes(disk), stretches[:{"full": 1, "places": 2}.get(shape, 4)], guest.rows)
