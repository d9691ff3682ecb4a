"""Nobody is ready for long without a hart: it gets one within 64 rounds, and with i inputs among its events within 64 (1 + i) rounds."""
import unittest
from random import Random

from cases.crowded import Weaver
from cases.sharers import Sharer
from model.assembler import STOP, image_of
from model.events import Eof, Input, Place
from model.machine import Machine
from model.plans import OWNERS, Options, next_event, round_length
from model.switches import switched
from model.threads import THREAD_IDS, Thread, Wait, WaitKind

GIVEN = Input(b"A")


def bound(machine, inputs):
    """As many events as these rounds have."""
    return OWNERS * round_length(machine) * (1 + inputs)


class Watch:
    """Of each thread that is ready and on no hart, for how many events it has been so, and how many of them were inputs."""

    def __init__(self, machine):
        self.machine, self.waited = machine, {}
        self.look()

    def look(self):
        machine = self.machine
        ready = [number for number in machine.threads if machine.is_ready(number) and number not in machine.harts]
        self.waited = {number: self.waited.get(number, (0, 0)) for number in ready}

    def note(self, event):
        """Who got no hart in time."""
        self.waited = {number: (events + 1, inputs + isinstance(event, (Input, Eof))) for number, (events, inputs) in self.waited.items()}
        self.look()
        return [number for number, (events, inputs) in self.waited.items() if events >= bound(self.machine, inputs)]


class Others:
    """A machine in which one thread stays ready. What becomes of all others isn't told by instructions, but drawn anew behind an event, and
    again where the thread would get a hart then. In place of that an input comes, as long as some are left."""

    def __init__(self, chance, harts):
        self.chance, self.machine = chance, Machine(16, harts, image_of([STOP]))
        self.thread = chance.choice([1, 64, *chance.sample(THREAD_IDS, 4)])
        self.draws, self.left = chance.choice([0, 1, 9, 9, 9]), chance.choice([0, 0, 1, 2])
        self.machine.threads = {number: Thread() for number in {self.thread, *chance.sample(THREAD_IDS, chance.choice([2, 5, 20, 64]))}}
        self.draw()

    def draw(self):
        """Few are ready, or many, or all. Who isn't leaves its hart."""
        share, machine = self.chance.choice([0.05, 0.3, 0.9, 1]), self.machine
        waiting = {number for number in machine.threads if number != self.thread and self.chance.random() >= share}
        machine.waits = [Wait(number, WaitKind.INPUT) for number in waiting]
        machine.harts = [0 if number in waiting else number for number in machine.harts]

    def has_turn(self, event):
        return isinstance(event, Place) and event.thread == self.thread

    def event(self, options, count):
        """The schedule's one, or an input."""
        for _ in range(self.draws):
            self.draw()
            if not self.has_turn(next_event(options, count, self.machine)):
                break
        event = next_event(options, count, self.machine)
        is_fed = self.left and (self.has_turn(event) or self.chance.random() < 0.001)
        self.left -= bool(is_fed)
        return GIVEN if is_fed else event

    def events_until_turn(self, options, begin):
        """How many there are, and how many of them are inputs."""
        inputs = 0
        for made in range(1, 9 * bound(self.machine, 0)):
            event = self.event(options, begin + made - 1)
            inputs += event == GIVEN
            if self.has_turn(event):
                break
            if isinstance(event, Place):
                self.machine.harts[event.hart] = event.thread
        return made, inputs


class Rounds(unittest.TestCase):
    def setUp(self):
        switch = switched(keys=True, long_runs=True)
        switch.__enter__()
        self.addCleanup(switch.__exit__, None, None, None)

    def test_bound(self):
        self.assertEqual([bound(Machine(16, harts, b""), inputs) for harts, inputs in ((1, 0), (8, 0), (1, 1), (8, 2))], [192, 1088, 384, 3264])

    def test_whatever_others_do(self):
        for seed in range(60):
            chance = Random(f"others {seed}")
            others = Others(chance, chance.choice([1, 1, 1, 2, 3]) if seed % 10 else 8)
            options = Options(turn=100, seed=chance.choice([None, chance.randrange(2 ** 64)]))
            made, inputs = others.events_until_turn(options, chance.choice([0, chance.randrange(5000), chance.randrange(2 ** 63)]))
            self.assertLessEqual(made, bound(others.machine, inputs), f"seed {seed}")

    def test_longest(self):
        """On one hart thread 1 is woken behind the first event of its round, and the input comes in the place of its next one. In each
        round but its own it isn't the one who is next: the owner is woken for it, and waits again behind it."""
        for inputs in range(3):
            machine = Machine(16, 1, image_of([STOP]))
            machine.threads = {number: Thread() for number in THREAD_IDS}
            for number in THREAD_IDS:
                machine.block(number, WaitKind.INPUT)
            machine.waits, machine.harts[0] = [wait for wait in machine.waits if wait.thread > 2], 2
            placed = []
            for count in range(1, 192 * (1 + inputs) + 1):
                owner = count // 3 % 64 + 1
                if count % 3 == 0 and owner > 1:
                    machine.leave_hart(machine.harts[0])
                    machine.waits = [Wait(number, WaitKind.INPUT) for number in THREAD_IDS if number not in (1, owner)]
                event = next_event(Options(), count, machine)
                if count % 192 == 0 and count < 192 * (1 + inputs):
                    self.assertEqual(event, Place(0, 1))
                    event = GIVEN
                elif isinstance(event, Place):
                    machine.harts[0] = event.thread
                    placed.append((count, event.thread))
            self.assertEqual([count for count, thread in placed if thread == 1], [192 * (1 + inputs)])

    def test_guests(self):
        """Random guests by random schedules. Some of their threads are always ready, and others sleep or wait again and again."""
        for seed in range(8):
            chance = Random(f"rounds {seed}")
            guest = (Weaver if seed % 4 else Sharer)(chance)
            machine = Machine(16, chance.choice([1, 1, 2, 3]), guest.image)
            options = Options(chance.choice([1, 5, 20]), seed=chance.choice([None, chance.randrange(2 ** 64)]))
            self.look_at_run(machine, options, chance, chance.choice([0, 0, 0.01]), seed)

    def look_at_run(self, machine, options, chance, share, seed):
        """Inputs come with this share, and where nobody can go on without them."""
        watch = Watch(machine)
        for count in range(3 * bound(machine, 0)):
            event = next_event(options, count, machine)
            event = GIVEN if event == "waits for input" or chance.random() < share else event
            if event == "deadlock" or machine.refusal_of(event, 0) is not None:
                return
            machine.step(event)
            self.assertEqual(watch.note(event), [], f"guest {seed} behind {count} events")
