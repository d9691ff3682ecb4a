"""What `ckrt profile` counts of a recorded run: steps by function, by stack of calls and by thread, and those that went by at waits."""
from collections import Counter
from dataclasses import dataclass, field

from model.listing import address_text, reason_of_wait
from model.stretches import Recording, next_word
from model.threads import WaitKind

JUMP, JUMP_TO_REGISTER, ECALL = 0b1101111, 0b1100111, 0x73
LINKS = (1, 5)
STACKS, WAITS, LINES = 1024, 256, 20


def calls(word):
    """Whether a jump writes a link register."""
    return word & 127 in (JUMP, JUMP_TO_REGISTER) and word >> 7 & 31 in LINKS


def returns(word):
    """Whether a jump reads a link register and doesn't write it. One that writes the other one calls, too."""
    return word & 127 == JUMP_TO_REGISTER and word >> 15 & 31 in LINKS and word >> 7 & 31 != word >> 15 & 31


@dataclass
class Frame:
    """A function on top of a stack; below it are its parents, down to the one that its thread began with."""
    function: int
    thread: int
    parent: "Frame | None" = None
    is_met: bool = False
    has_row: bool = False
    steps: int = 0
    calls: int = 0
    children: dict = field(default_factory=dict)

    def path(self):
        """The functions from the one that the thread began with up to this one."""
        found, frame = [], self
        while frame:
            found.append(frame.function)
            frame = frame.parent
        return found[::-1]


class Profile:
    """Looks on. A thread's stack is kept with the thread that it is of, and how often the runtime had sent that on.

    Functions and waits have their steps in the order in which they were met, functions with their first step and waits where they begin.
    `entered` has by thread the function that it called with its last step. A stack that begins at a gate has that as its function.
    """

    def __init__(self):
        self.steps = 0
        self.bottoms, self.frames, self.others = {}, [], 0
        self.stacks = {}
        self.calls, self.threads, self.waits = Counter(), Counter(), Counter()
        self.other_waits, self.entered = 0, {}
        self.called_at = {}

    def begin_event(self, number):
        """Nothing is counted by events."""

    def look(self, machine, hart, step, make):
        made = make() if hart is None else self.look_at_step(machine, machine.harts[hart], make)
        self.meet_waits(machine)
        return made

    def look_at_step(self, machine, number, make):
        thread = machine.threads[number]
        for wait in machine.waits:
            self.count_wait(wait)
        self.count_step(number, self.top(number, thread))
        word = next_word(machine, number)
        self.called_at[number] = thread.pc if word == ECALL else None
        made = make()
        if word is not None:
            self.move(number, thread, word)
        return made

    def begin(self, machine, ends):
        """Threads that are under way where the stretch begins begin their stacks there."""
        for number, thread in sorted(machine.threads.items()):
            if not thread.has_ended:
                self.top(number, thread)
        self.meet_waits(machine)

    def meet_waits(self, machine):
        """Each where it begins."""
        for wait in machine.waits:
            if len(self.waits) < WAITS:
                self.waits[wait.thread, awaited(wait)] += 0

    def count_wait(self, wait):
        """Of each thread by what it waits for; who waits for its mutex behind a condition waits for the mutex."""
        key = wait.thread, awaited(wait)
        if key in self.waits:
            self.waits[key] += 1
        else:
            self.other_waits += 1

    def top(self, number, thread):
        """A stack is begun by a thread's first step, and where the runtime sends it, but just behind its call."""
        known, sendings, frame = self.stacks.get(number, (None, 0, None))
        if self.called_at.get(number) is not None and thread.pc == self.called_at[number] + 4:
            known, sendings = thread, thread.sendings
            self.stacks[number] = known, sendings, frame
        if known is not thread or sendings != thread.sendings:
            frame = self.enter(self.bottoms, (number, thread.pc), thread.pc, number, None)
            self.entered.pop(number, None)
            self.count_call(frame)
            self.stacks[number] = thread, thread.sendings, frame
        return frame

    def enter(self, siblings, key, function, number, parent):
        return siblings.setdefault(key, Frame(function, number, parent))

    def count_call(self, frame):
        """With the first step behind it; a stack gets its row with its first one."""
        if not frame.is_met:
            frame.is_met, frame.has_row = True, len(self.frames) < STACKS
            if frame.has_row:
                self.frames.append(frame)
        if frame.has_row:
            frame.calls += 1
            self.calls[frame.function] += 1

    def count_step(self, number, frame):
        self.steps += 1
        self.threads[number] += 1
        if self.entered.pop(number, None) is frame:
            self.count_call(frame)
        if frame.has_row:
            frame.steps += 1
        else:
            self.others += 1

    def move(self, number, thread, word):
        """The function that a stack began with stays on it."""
        known, sendings, frame = self.stacks[number]
        if returns(word):
            frame = frame.parent or frame
        if calls(word):
            frame = self.enter(frame.children, thread.pc, thread.pc, number, frame)
            self.entered[number] = frame
        self.stacks[number] = known, sendings, frame

    def functions(self):
        """The steps of each, on all stacks that have rows."""
        steps = Counter()
        for frame in self.frames:
            steps[frame.function] += frame.steps
        return steps

    def table(self):
        functions = [(steps, f"pc {address_text(function)}, calls {self.calls[function]}") for function, steps in self.functions().items()]
        threads = [(steps, f"thread {number}") for number, steps in sorted(self.threads.items())]
        waits = [(steps, f"thread {number} waits {what}") for (number, what), steps in self.waits.items()]
        lines = [f"steps {self.steps}"]
        for head, rows, others, last in [("function", functions, 0, [(self.others, "elsewhere")]), ("thread", threads, 0, []),
                                         ("wait", waits, self.other_waits, [])]:
            lines += ["", line_of("share", "steps", head), *self.section(rows, others), *self.lines_of(last)]
        return lines

    def section(self, rows, others):
        """The rows with the most steps; of the same number that which comes first."""
        rows = sorted(rows, key=lambda row: -row[0])
        rest = others + sum(steps for steps, _ in rows[LINES:])
        return self.lines_of([*rows[:LINES], (rest, "others")])

    def lines_of(self, rows):
        """Those with steps."""
        return [line_of(share_of(steps, self.steps), steps, name) for steps, name in rows if steps]

    def folded(self):
        """A line for each stack with steps of its own, in the order in which they were met."""
        lines = [";".join([f"thread {frame.thread}", *map(address_text, frame.path())]) + f" {frame.steps}" for frame in self.frames if frame.steps]
        return lines + [f"others {self.others}"] * (self.others > 0)

    def costs(self):
        """Of each stack with a row, as they were met, the function on top and its own steps; and what called it, which is a thread for one
        that a stack begins with, the function, how often, and the steps on all stacks that begin with this one. Then those on stacks
        without a row."""
        below, entries = Counter(), []
        for frame in reversed(self.frames):
            below[id(frame)] += frame.steps
            if frame.parent:
                below[id(frame.parent)] += below[id(frame)]
        for frame in self.frames:
            name, caller = address_text(frame.function), address_text(frame.parent.function) if frame.parent else f"thread {frame.thread}"
            entries += [(name, frame.steps), (caller, name, frame.calls, below[id(frame)])]
        return entries + [("others", self.others)] * (self.others > 0)


def awaited(wait):
    """In the words of a listing, but for what it has beside the object."""
    words = reason_of_wait(wait).split()[:2]
    return " ".join(["mutex", words[1]] if wait.kind is WaitKind.RETAKE else words)


def share_of(steps, whole):
    """In percent, to a hundredth, rounded down, and at most all of it."""
    hundredths = min(10_000, 10_000 * steps // whole)
    return f"{hundredths // 100}.{hundredths % 100:02}%"


def line_of(share, steps, name):
    return f"{share:>7}{steps:>18}  {name}"


def profile_of(contents, first=None, last=None):
    return Recording(bytearray(contents)).show(Profile(), first, last)
