"""Cases of dense timelines: guests whose threads take many short turns, and stretches with as many pieces as are drawn, and with more."""
from cases.glances import TimelinesCase, recording_of
from cases.streams import joined
from model.abi import Call
from model.assembler import Jump, Label, Program, add_immediate, call_words, image_of
from model.columns import MOST_PIECES
from model.lines import serve_disk
from model.timelines import Timeline

LENGTHS = [[1], [1, 2, 3], [2, 5, 9], [4, 30], [30]]


class Weaver:
    """A guest whose threads go round without an end, and wait for each other, for time and for input now and then."""

    def __init__(self, chance):
        self.chance, program = chance, Program()
        names = [f"round {number}" for number in range(chance.choice([1, 3, 4, 6, 12]))]
        self.kinds = chance.sample(self.all_kinds(), chance.choice([1, 2, 4]))
        program.add(call_words(Call.BARRIER_INIT, 0x4000, 2))
        for name in names:
            program.add(call_words(Call.CREATE, Label(name), 0, 0, 0))
        for name in ["main", *names]:
            program.label(name)
            program.add([word for _ in range(chance.choice([1, 2, 3])) for word in chance.choice(self.kinds)()])
            program.add([Jump(name)])
        program.label("short")
        program.add(call_words(Call.THREAD_EXIT, 0))
        self.image = image_of(program.words())

    def all_kinds(self):
        return [self.computed, self.locked, self.condition, self.barrier, self.lock, self.child, self.input, self.sleep]

    def computed(self):
        return [add_immediate(5, 5, 1)] * self.chance.choice([1, 5, 20])

    def locked(self):
        mutex = self.chance.choice([0x2000, 0x2004])
        return [*call_words(Call.MUTEX_LOCK, mutex), *self.computed(), *call_words(Call.MUTEX_UNLOCK, mutex)]

    def condition(self):
        if self.chance.random() < 0.5:
            return [*call_words(Call.COND_BROADCAST, 0x3000), *self.computed()]
        return [*call_words(Call.MUTEX_LOCK, 0x2000), *call_words(Call.COND_WAIT, 0x3000, 0x2000), *self.computed(),
                *call_words(Call.MUTEX_UNLOCK, 0x2000)]

    def barrier(self):
        return [*self.computed(), *call_words(Call.BARRIER_WAIT, 0x4000)]

    def lock(self):
        taken = self.chance.choice([Call.RWLOCK_RDLOCK, Call.RWLOCK_WRLOCK])
        return [*call_words(taken, 0x5000), *self.computed(), *call_words(Call.RWLOCK_UNLOCK, 0x5000)]

    def child(self):
        """It has ended for a while before somebody joins it."""
        return [*call_words(Call.CREATE, Label("short"), 0, 0, 0), add_immediate(8, 11, 0), *self.computed(),
                add_immediate(10, 8, 0), *call_words(Call.JOIN)]

    def input(self):
        return [*call_words(Call.GETC), *self.computed()]

    def sleep(self):
        return [*call_words(Call.CLOCK), add_immediate(10, 10, self.chance.choice([1, 3])), *call_words(Call.SLEEP_UNTIL)]


class Counted(Timeline):
    """With the number of pieces at the begin of each event."""

    def __init__(self):
        super().__init__()
        self.counts = {}

    def begin_event(self, number):
        super().begin_event(number)
        self.counts[number] = sum(map(len, self.pieces.values()))


def turns(chance, harts):
    """Lines of many turns, with some time and input between."""
    lengths, lines = chance.choice(LENGTHS), [b"place 0 1", b"run 0 %d" % chance.choice([20, 80, 120])]
    for number in range(chance.choice([900, 1300])):
        lines.append(b"auto %d %d" % (chance.randrange(harts), chance.choice(lengths)))
        lines += [b"tick 2", b"in 4142"] * (number % 20 == 7)
        lines += [b"commit"] * (number % 50 == 9)
    return [*lines, b"commit"]


def ends_about(disk):
    """The last event behind which there are no more pieces than are drawn, where there are more at the end."""
    recording, _ = recording_of(disk)
    counts = recording.show(Counted()).counts
    few = [number for number, count in counts.items() if count <= MOST_PIECES]
    return [few[-1]] if few and few[-1] < max(counts) else []


def dense_case(chance, case):
    """Widths that a picture may have, since the others are tried elsewhere."""
    disk = case.disk()
    serve_disk(disk, joined(chance, turns(chance, case.geometry.harts)))
    stretches = [(None, None)] + [(None, end + more) for end in ends_about(disk) for more in (0, 1)]
    return TimelinesCase(bytes(disk), stretches, chance.choice([None, 400, 4000]))
