"""Random guests of several threads, whose calls leave their results where a last thread prints them.

Each call adds x10 and x11 to two words of its own in a log. The thread with id 2 is made first, sleeps till the end, and
then prints the log.
"""
from model.abi import ALL_ONES, KEY_CALLS, RETURN_GATE, UNWIND_GATE, Call
from model.assembler import (STOP, Branch, Jump, Label, Program, add, add_immediate, call_words, image_of, jump_register,
                             length_of, load_byte, load_number, load_word, store_word)
from model.switches import SWITCHES

LOG = 0xF800
LOG_SLOTS = 400
END_OF_TIME = (0, 2)  # the moment, low and high word, till which the printing thread sleeps
UNKNOWN_CALLS = [0, 6, 9, 15, 19, 26, 29, 36, 43, 57, 66, 70, 71, 72, 73, 74, 256 + 2, ALL_ONES, 1 << 31]
RETURN = jump_register(0, 9, 0)  # x9 keeps what x1 was at the start
WEIGHTS = {"mutex": 5, "condition": 5, "barrier": 2, "lock": 3, "thread": 3, "cancel": 4, "stream": 2, "odd": 0.3}


def unknown_calls():
    return [number for number in UNKNOWN_CALLS if not (SWITCHES.keys and number in KEY_CALLS)]


def theme_weights():
    return {"key": 4, **WEIGHTS} if SWITCHES.keys else dict(WEIGHTS)


class Guest:
    """`image` is the guest, `dump_steps` a number of steps in which the log is printed."""

    def __init__(self, chance):
        self.chance, self.slots = chance, 0
        self.starts = [f"start {number}" for number in range(chance.choice([1, 2, 3, 3, 4]))]
        self.handlers = [f"handler {number}" for number in range(chance.choice([1, 2, 3]))]
        self.weights = self.theme_weights()
        if chance.random() < 0.5:
            kept = chance.sample(list(self.weights)[:-1], chance.choice([1, 2, 2, 3]))
            self.weights = {theme: weight * (8 if theme in kept else 0.5) for theme, weight in self.weights.items()}
        self.program = Program()
        self.add_main()
        for name in self.starts:
            self.add_start(name)
        for name in self.handlers:
            self.add_handler(name)
        self.add_dump()
        self.image = image_of(self.program.words())

    def theme_weights(self):
        return theme_weights()

    def moment(self):
        low = self.chance.choice([0, 1, 2, 3, 5, 8, 12, 20, 30, 100])
        return low, self.chance.choice([0] * 14 + [0x7FFFFFFF, 0x80000000, ALL_ONES, 1])

    def thread_id(self):
        if self.chance.random() < 0.05:
            return self.chance.choice([0, 7, 64, 65, ALL_ONES, 259])
        return self.chance.choice([1, 2, 3, 3, 3, 4, 4, 4, 5, 5, 5, 6])

    def mutex(self):
        usual = self.chance.random() < 0.97
        return self.chance.choice([0x2000, 0x2004, 0x2004, 0x2010] if usual else [0, ALL_ONES, 0x2001])

    def routine(self, names):
        """Mostly one of the guest's own, now and then a gate or an address between the words."""
        if self.chance.random() < 0.08:
            return self.chance.choice([RETURN_GATE, UNWIND_GATE, 0x1002, 0x1001, 0x1000])
        return Label(self.chance.choice(names))

    def choose(self, *weighted):
        """One of (weight, calls); each call is a number and its arguments."""
        return self.chance.choices([calls for _, *calls in weighted], [weight for weight, *_ in weighted])[0]

    def operation(self):
        """The calls of a random operation."""
        theme = self.chance.choices(list(self.weights), self.weights.values())[0]
        return getattr(self, f"{theme}_operation")()

    def mutex_operation(self):
        mutex, kind = self.mutex(), self.chance.choice([0, 1, 1, 2, 2, 3])
        between = self.chance.choice([Call.SELF, Call.TESTCANCEL, Call.CLOCK])
        return self.choose(
            (12, (Call.MUTEX_INIT, mutex, kind)), (5, (Call.MUTEX_DESTROY, mutex)), (18, (Call.MUTEX_LOCK, mutex)),
            (8, (Call.MUTEX_TRYLOCK, mutex)), (10, (Call.MUTEX_TIMEDLOCK, mutex, *self.moment())),
            (7, (Call.MUTEX_LOCK, mutex), (between,), (Call.MUTEX_UNLOCK, mutex)), (40, (Call.MUTEX_UNLOCK, mutex)))

    def condition_operation(self):
        mutex, condition = self.mutex(), self.chance.choice([0x2000, 0x3000])
        lock, unlock = (Call.MUTEX_LOCK, mutex), [(Call.MUTEX_UNLOCK, mutex)] if self.chance.random() < 0.8 else []
        wait = (Call.COND_WAIT, condition, mutex)
        timed_wait = (Call.COND_TIMEDWAIT, condition, mutex, *self.moment())
        return self.choose(
            (4, (Call.COND_INIT, condition)), (4, (Call.COND_DESTROY, condition)), (10, wait),
            (17, lock, wait, *unlock), (10, (Call.MUTEX_TRYLOCK, mutex), timed_wait, *unlock),
            (7, (Call.MUTEX_INIT, mutex, 1), lock, lock, self.chance.choice([wait, timed_wait]), *unlock),
            (8, timed_wait), (25, (Call.COND_SIGNAL, condition)), (15, (Call.COND_BROADCAST, condition)))

    def barrier_operation(self):
        barrier = self.chance.choice([0x2000, 0x4000])
        return self.choose((20, (Call.BARRIER_INIT, barrier, self.chance.choice([0, 1, 2, 2, 3, 3]))),
                           (8, (Call.BARRIER_DESTROY, barrier)), (72, (Call.BARRIER_WAIT, barrier)))

    def lock_operation(self):
        lock = self.chance.choice([0x2000, 0x5000])
        taken = self.chance.choice([Call.RWLOCK_RDLOCK, Call.RWLOCK_WRLOCK])
        return self.choose(
            (5, (Call.RWLOCK_INIT, lock)), (5, (Call.RWLOCK_DESTROY, lock)), (20, (Call.RWLOCK_RDLOCK, lock)),
            (6, (Call.RWLOCK_TRYRDLOCK, lock)), (19, (Call.RWLOCK_WRLOCK, lock)), (5, (Call.RWLOCK_TRYWRLOCK, lock)),
            (15, (taken, lock), (Call.SELF,), (Call.RWLOCK_UNLOCK, lock)), (25, (Call.RWLOCK_UNLOCK, lock)))

    def thread_operation(self):
        chance = self.chance
        create = (Call.CREATE, self.routine(self.starts), chance.choice([7, 0, 99, 0x12345678]),
                  chance.choice([0, 0x8000]), chance.choice([0, 0, 1, 2]))
        return self.choose(
            (25, create), (30, (Call.JOIN, self.thread_id())), (20, (Call.DETACH, self.thread_id())),
            (5, (Call.THREAD_EXIT, chance.choice([5, 6, 0x1234567, ALL_ONES, 0]))), (20, (Call.SELF,)))

    def cancel_operation(self):
        chance = self.chance
        push = (Call.CLEANUP_PUSH, self.routine(self.handlers), chance.choice([1, 2, 3, 0x11223344, 65]))
        return self.choose(
            (35, (Call.CANCEL, self.thread_id())), (10, (Call.TESTCANCEL,)),
            (13, (Call.SETCANCELSTATE, chance.choice([0, 0, 1, 1, 2]))),
            (12, (Call.SETCANCELTYPE, chance.choice([0, 1, 1, 2]))),
            (18, push), (12, (Call.CLEANUP_POP, chance.choice([0, 1, 1, 2]))))

    def key(self):
        return self.chance.choice([4, 31, 32, ALL_ONES]) if self.chance.random() < 0.06 else self.chance.choice([0, 0, 1, 1, 2, 3])

    def key_operation(self):
        """Destructors are handlers: these put what they are handed, and may set values again."""
        chance, destructor = self.chance, 0 if self.chance.random() < 0.2 else self.routine(self.handlers)
        setting = (Call.SETSPECIFIC, self.key(), chance.choice([0, 1, 66, 0x43, 0x11223344, ALL_ONES]))
        return self.choose((30, (Call.KEY_CREATE, destructor)), (8, (Call.KEY_DELETE, self.key())), (37, setting),
                           (25, (Call.GETSPECIFIC, self.key())))

    def stream_operation(self):
        return self.choose((30, (Call.PUTC, self.chance.choice([65, 66, 0x1FF, 0x41424344]))), (35, (Call.GETC,)),
                           (15, (Call.CLOCK,)), (20, (Call.SLEEP_UNTIL, *self.moment())))

    def odd_operation(self):
        return self.choose((1, (Call.EXIT, self.chance.choice([0, 3, ALL_ONES]))),
                           (9, (self.chance.choice(unknown_calls()),)))

    def logged(self, number, *arguments):
        """The words of a call, of adding its results to the log, and at times of putting one."""
        words = call_words(number, *arguments)
        if self.slots < LOG_SLOTS:
            for register, offset in ((10, 8 * self.slots - 2048), (11, 8 * self.slots - 2044)):
                words += [load_word(4, offset, 3), add(4, 4, register), store_word(4, offset, 3)]
            self.slots += 1
        return words + (call_words(Call.PUTC) if self.chance.random() < 0.08 else [])

    def add_operations(self, count):
        for _ in range(count):
            self.add_calls(self.operation())

    def add_calls(self, calls):
        """At times the calls are skipped where the result before them was 0, or wasn't."""
        words = [word for call in calls for word in self.logged(*call)]
        if self.chance.random() < 0.07:
            label = f"behind {self.program.end}"
            self.program.add([Branch(self.chance.choice([0, 1]), 10, 0, label)])
            self.program.add(words)
            self.program.label(label)
        else:
            self.program.add(words)

    def begin(self, name, words):
        self.program.label(name)
        self.program.add(load_number(3, LOG) + words)
        self.program.label(f"again {name}")

    def add_main(self):
        chance = self.chance
        self.begin("main", [add_immediate(9, 1, 0)])
        self.add_calls([(Call.CREATE, Label("dump"), 0, 0, 0)])
        for number, name in enumerate(self.starts):
            argument, is_detached = chance.choice([7, 100 + number]), chance.choice([0, 0, 0, 1])
            self.add_calls([(Call.CREATE, Label(name), argument, 0x8000, is_detached)])
        self.add_operations(chance.choice([3, 8, 14]))
        self.program.add(chance.choice([[Jump("again main")], [STOP], [STOP], call_words(Call.THREAD_EXIT, 0x77),
                                        call_words(Call.THREAD_EXIT, 3), [RETURN], call_words(Call.EXIT, 9)]))

    def add_start(self, name):
        chance = self.chance
        self.begin(name, [add_immediate(9, 1, 0)])
        if chance.random() < 0.3:
            self.add_calls([(Call.SETCANCELTYPE, 1)])
        for _ in range(chance.choice([0, 0, 1, 2])):
            self.add_calls([(Call.CLEANUP_PUSH, Label(chance.choice(self.handlers)), chance.choice([1, 2, 3]))])
        self.add_operations(chance.choice([3, 6, 10, 16]))
        ends = [[RETURN], load_number(10, 0xABC) + [RETURN], call_words(Call.THREAD_EXIT, 0x55), [STOP]]
        self.program.add([Jump(f"again {name}")] if chance.random() < 0.45 else chance.choice(ends))

    def add_handler(self, name):
        """Puts its argument's low byte; most return."""
        chance = self.chance
        self.begin(name, [add_immediate(8, 1, 0)] + call_words(Call.PUTC))
        self.add_operations(chance.choice([0, 1, 2, 4]))
        returns = [jump_register(0, 1, 0)]
        others = [[jump_register(0, 8, 0)], call_words(Call.THREAD_EXIT, 0x99), [STOP]]
        self.program.add(chance.choice(others) if chance.random() < 0.2 else returns)

    def add_dump(self):
        length = 8 * max(1, self.slots)
        put = [load_byte(10, 0, 5)] + call_words(Call.PUTC) + [add_immediate(5, 5, 1)]
        self.dump_steps = (1 + length_of(put) // 4) * length + 30
        self.program.label("dump")
        self.program.add(call_words(Call.SETCANCELSTATE, 1) + call_words(Call.SLEEP_UNTIL, *END_OF_TIME))
        self.program.label("print")
        self.program.add(load_number(5, LOG - 2048) + load_number(6, LOG - 2048 + length))
        self.program.label("print a byte")
        self.program.add(put + [Branch(1, 5, 6, "print a byte"), Jump("print")])
