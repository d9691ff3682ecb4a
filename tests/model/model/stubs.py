"""What `ckrt debug` answers of the state at a position: to gdb's packets that neither move nor set anything, and to `monitor`."""
import re
from copy import deepcopy
from dataclasses import dataclass, field

from model.abi import PAGE
from model.events import Place
from model.listing import lines_of_state
from model.motions import named, text_of_stop
from model.stretches import next_thread
from model.threads import WaitKind

MOST_BYTES = 2048  # of memory, in an answer
MOST_THREADS = 64
REGISTERS = 33  # with the pc
OUTSIDE, NO_THREAD = "E14", "E01"


def frame(payload):
    return f"${payload}#{sum(payload.encode()) % 256:02x}".encode()


def monitor(text):
    return "qRcmd," + (text if isinstance(text, bytes) else text.encode()).hex()


def answers_in(output):
    """The payloads, without the console's; beside each what the console was told before it. A wrong sum stands behind its payload."""
    answers, told = [], ""
    for framed, payload in re.findall(r"(\$([^#]*)#..)", output.decode()):
        if frame(payload) != framed.encode():
            answers.append((told, framed))
        elif re.fullmatch(r"O([0-9a-f]{2})+", payload):
            told += bytes.fromhex(payload[1:]).decode()
        else:
            answers.append((told, payload))
            told = ""
    return answers


def position_text(position):
    event, step = position
    return f"{event}+{step}" if step else str(event)


def text_of_reason(machine, wait):
    """What a thread waits for, and who has it."""
    address, owner = f"{wait.subject:#x}", machine.mutexes[wait.subject].owner if wait.subject in machine.mutexes else 0
    return {WaitKind.JOIN: f"joins thread {wait.subject}", WaitKind.LOCK: f"waits for mutex {address} of thread {owner}",
            WaitKind.RETAKE: f"waits again for mutex {address} of thread {owner}", WaitKind.CONDITION: f"waits at condition {address}",
            WaitKind.BARRIER: f"waits at barrier {address}", WaitKind.READ: f"waits to read {address}",
            WaitKind.WRITE: f"waits to write {address}", WaitKind.INPUT: "waits for input", WaitKind.SLEEP: "sleeps"}[wait.kind]


def text_of_thread(machine, number):
    wait = machine.wait_of(number)
    if wait is not None:
        return text_of_reason(machine, wait) + (f", until {wait.deadline}" if wait.deadline is not None else "")
    return f"on hart {machine.harts.index(number)}" if number in machine.harts else "ready"


def live_threads(machine):
    return [number for number, thread in sorted(machine.threads.items()) if not thread.has_ended]


def shown_at_first(machine, events=()):
    """The thread that `?` names before anybody has moved, and whose registers are shown: thread 1, if it is there. With `--at` it is the one
    whose step is next before the events from there on, if any is."""
    return named(next_thread(machine, events), live_threads(machine), 1)


def known_threads(begin, events):
    """Up to which number gdb knows threads from the first stop on: the greatest that is there at the history's begin, or that a recorded event
    places."""
    return max([1, *live_threads(begin), *[event.thread for event in events if isinstance(event, Place)]])


def registers_text(machine, number):
    """x0 to x31 and the pc, the lowest byte first; zeros of one that isn't there."""
    if number not in live_threads(machine):
        return bytes(4 * REGISTERS).hex()
    thread = machine.threads[number]
    return b"".join(word.to_bytes(4, "little") for word in [*thread.registers, thread.pc]).hex()


def memory_text(memory, address, length):
    """The bytes up to the first one outside."""
    place = address - PAGE
    return memory.bytes[place:place + min(length, MOST_BYTES)].hex() if memory.is_valid(address, 1) else OUTSIDE


def line_of_events(position, ends):
    return f"event {position_text(position)}, from {ends[0]} to {ends[1]}\n"


@dataclass
class Look:
    """What is asked at a position, of threads, by their numbers, and of memory, by address and length; and where nobody has moved yet.
    Before all that something is mistyped at times: packets of which nothing comes, and their answers. gdb knows threads up to a number."""
    position: tuple
    threads: list
    reads: list
    mistyped: list = field(default_factory=list)
    known: int = 1

    def packets(self):
        """It is asked why the session stands, too."""
        return [monitor(f"goto {position_text(self.position)}"), "?", *self.questions()]

    def first_packets(self):
        return ["?", "g", *self.questions()]

    def questions(self):
        asked = [*[packet for packet, _ in self.mistyped], monitor("events"), monitor("inspect"), "qfThreadInfo"]
        for number in self.threads:
            asked += [f"T{number:x}", f"qThreadExtraInfo,{number:x}", f"Hg{number:x}", "g"]
        return asked + [f"m{address:x},{length:x}" for address, length in self.reads]

    def answers(self, machine, ends, named_there):
        """What the console is told, and the payload. The stop names a thread, which is examined from then on."""
        place, stop = (line_of_events(self.position, ends), "OK"), ("", text_of_stop("T05", named_there))
        return [place, stop, *self.told(machine, ends, named_there)]

    def first_answers(self, machine, ends, named_there, examined):
        """A session begins with a plain stop."""
        return [("", text_of_stop("T05", named_there)), ("", registers_text(machine, examined)), *self.told(machine, ends, examined)]

    def told(self, machine, ends, examined):
        """To the questions alone."""
        listing = "".join(line + "\n" for line in lines_of_state(self.position[0], machine, machine.hart_count))
        answers = [*[answer for _, answer in self.mistyped], (line_of_events(self.position, ends), "OK"), (listing, "OK"),
                   ("", "m" + ",".join(f"{number:x}" for number in told_threads(machine, self.known)))]
        for number in self.threads:
            examined = number if number in told_threads(machine, self.known) else examined
            answers += answers_of_thread(machine, number, examined, self.known)
        return answers + [("", memory_text(machine.memory, address, length)) for address, length in self.reads]


def told_threads(machine, known=1):
    """Those that gdb knows, there or not, and those that haven't ended."""
    return sorted({*range(1, min(known, MOST_THREADS) + 1), *live_threads(machine)})


def text_of_told(machine, number):
    """Of one that is there, which thread 1 is where none is left; else what has become of it, as far as nobody has joined it."""
    if number in live_threads(machine):
        return text_of_thread(machine, number)
    if number == 1 and not live_threads(machine):
        return "ready"
    return "has ended" if number in machine.threads else "isn't there"


def answers_of_thread(machine, number, examined, known=1):
    """Whether it is alive, what is to say of it, whether it may be examined, and the registers of the one that is then: the same as before
    where it isn't told."""
    is_alive, registers = ("", "OK" if number in told_threads(machine, known) else NO_THREAD), ("", registers_text(machine, examined))
    if number not in told_threads(machine, known):
        return [is_alive, ("", NO_THREAD), ("", NO_THREAD), registers]
    return [is_alive, ("", text_of_told(machine, number).encode().hex()), ("", "OK"), registers]


class Visits:
    """Looks on, and keeps the machine at each look's position, with the thread whose step is next there; `steps` has by event how many
    positions it has."""

    def __init__(self, looks, ends):
        self.looks, self.ends = looks, ends
        self.kept, self.steps, self.event = {}, {}, ends[0]

    def begin_event(self, number):
        self.event = number

    def look(self, machine, hart, step, make):
        self.visit((self.event, step), machine, None if hart is None else machine.harts[hart])
        self.steps[self.event] = step + 1
        return make()

    def visit(self, position, machine, running):
        if position in [look.position for look in self.looks]:
            self.kept[position] = deepcopy(machine), running

    def answers(self, before):
        """Of each look, in the order in which they are asked: a stop may name the thread of the one before."""
        answers = []
        for look in self.looks:
            machine, running = self.kept[look.position]
            before = named(running, live_threads(machine), before)
            answers.append(look.answers(machine, self.ends, before))
        return answers


def is_answered(expected, got):
    """Whether an answer is as expected; None is any text on the console."""
    told, payload = expected
    return told in (None, got[0]) and got[1] == payload
