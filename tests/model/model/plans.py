"""Unattended drives: what a drive does next, from its options, the number of events so far and the machine alone."""
from dataclasses import dataclass

from model.events import LONG_RUN, Place, Run, RunLong, Tick, VERSION_OF_LONG_RUNS, decode_events
from model.devices import MemoryDisk
from model.feeding import Supply, Undriven
from model.layout import BATCH_LIMIT
from model.schedules import Schedule, note_schedule, require_schedule
from model.session import Session
from model.switches import SWITCHES
from model.threads import THREAD_IDS, Status

LONGEST_BATCH = BATCH_LIMIT + 3
SHORTAGES = ("OutputFull", "BatchFull", "JournalFull")
LONGEST_SHORT_RUN = 65_535
LONGEST_TICK = 2 ** 32 - 1
OWNERS = len(THREAD_IDS)
WORD = 2 ** 64
MULTIPLIER, INCREMENT = 6364136223846793005, 2 * 54 + 1  # of PCG32, and of its stream 54
ENDS = {"enough": 5, "deadlock": 4, "waits for input": 3}


@dataclass(frozen=True)
class Options:
    """`events` is how many are left to this drive, None for any number; `is_other` tells that another schedule may be noted."""
    turn: int = LONG_RUN
    rounds: int = 16
    seed: int | None = None
    events: int | None = None
    is_other: bool = False

    @property
    def schedule(self):
        return Schedule(self.turn, self.seed)

    def words(self):
        words = ["--turn", self.turn, "--rounds-per-commit", self.rounds]
        words += [] if self.seed is None else ["--seed", self.seed]
        words += [] if self.events is None else ["--events", self.events]
        words += ["--other-schedule"] if self.is_other else []
        return [str(word) for word in words]


def draw(seed, count):
    """What PCG32 draws from this seed behind `count` other draws (O'Neill, sections 4.3.1 and 6.3)."""
    state = ((INCREMENT + seed) * MULTIPLIER + INCREMENT) % WORD
    factor, addend = MULTIPLIER, INCREMENT
    while count:
        if count % 2:
            state = (state * factor + addend) % WORD
        addend = addend * (factor + 1) % WORD
        factor = factor * factor % WORD
        count //= 2
    mixed, turn = ((state >> 18 ^ state) >> 27) % 2 ** 32, state >> 59
    return (mixed >> turn | mixed << (32 - turn)) % 2 ** 32


def round_length(machine):
    """Two places for each hart, and one for the clock."""
    return 2 * machine.hart_count + 1


def first_of(harts, begin):
    """The first hart that is wanted, from one on and round."""
    count = len(harts)
    return next(hart % count for hart in range(begin, begin + count) if harts[hart % count])


def run_of(hart, steps):
    return Run(hart, steps) if steps <= LONGEST_SHORT_RUN else RunLong(hart, steps)


def tick_to_deadline(machine):
    """The clock goes to the earliest deadline; where there is none, why nothing goes on."""
    deadlines = [wait.deadline for wait in machine.waits if wait.deadline is not None]
    if deadlines:
        return Tick(max(1, min(min(deadlines) - machine.clock, LONGEST_TICK)))
    return "waits for input" if machine.waits_for_input() else "deadlock"


def owner_of(count, machine):
    """The thread to which the round behind so many events belongs, whether there is one or not."""
    return count // round_length(machine) % OWNERS + 1


def bounds_of(options, count, machine):
    """With which hart and which thread a search begins, and the most steps of a run."""
    if options.seed is None:
        return count % round_length(machine) // 2, owner_of(count, machine), options.turn
    lot = draw(options.seed, count)
    return lot % machine.hart_count, lot // 8 % OWNERS + 1, lot // 8 % options.turn + 1


def thread_for(machine, hart, owner, start):
    """Whom a busy hart gets: the owner of the round, where it is ready. Else an occupied hart gets the planned thread, or none where nobody
    is ready, and an empty one the first that is ready, from a start on, which is folded into the numbers up to the greatest of these."""
    ready = [number for number in machine.threads if machine.is_ready(number) and number not in machine.harts]
    if owner in ready:
        return owner
    if machine.harts[hart] != 0:
        return machine.planned(hart)
    begin = (start - 1) % max(ready) + 1
    return min(number for number in ready if number >= begin)


def next_event(options, count, machine):
    """The event behind so many, or a word for why there is none."""
    place = count % round_length(machine)
    running = [machine.harts[hart] != 0 for hart in range(machine.hart_count)]
    busy = [is_running or machine.planned(hart) is not None for hart, is_running in enumerate(running)]
    if not any(busy):
        return tick_to_deadline(machine)
    if place == 2 * machine.hart_count:
        return Tick(1)
    begin, start, steps = bounds_of(options, count, machine)
    if place % 2 == 1 and any(running):
        return run_of(first_of(running, begin), steps)
    hart = first_of(busy, begin)
    thread = thread_for(machine, hart, owner_of(count, machine), start)
    return run_of(hart, steps) if thread is None else Place(hart, thread)


def require_fit(session, length):
    """The output has all that the disk takes for put out, and no more than it has released."""
    if not session.confirmed <= length <= session.released:
        raise Undriven("OutputDiffers", length, session.confirmed, session.released)


def begin(disk, options, data, said):
    """What comes before recovery: the schedule is looked at, the input is found, and then the schedule is noted."""
    if not SWITCHES.schedules:
        return
    require_schedule(disk.read(0, len(disk)), options.schedule, options.is_other)
    if data is not None:
        Supply(Session(MemoryDisk(bytearray(disk.read(0, len(disk))))), data, said)
    note_schedule(disk, options.schedule)


class Drive:
    """A drive of a disk; `output` are the bytes of its file, and `data` those of its input, if it has one.

    `said` is how much of that the words say that the program had taken. `keeper` keeps a history of the disk, where one is kept.
    """

    def __init__(self, disk, output, options, tally, data=None, said=None, keeper=None):
        begin(disk, options, data, said)
        self.keeper = keeper
        if keeper is not None:
            keeper.begin(disk)
        self.session, self.output, self.options = Session(disk, tally), output, options
        self.acknowledged, self.left = self.session.events, options.events
        require_fit(self.session, len(output))
        self.supply = None if data is None else Supply(self.session, data, said)

    def run(self):
        """The status of the program."""
        while (end := self.step()) is None:
            pass
        return end

    @property
    def is_crowded(self):
        return self.session.journal_used > 0 and self.session.room < LONGEST_BATCH

    @property
    def unacknowledged(self):
        return self.session.events - self.acknowledged

    def step(self):
        session = self.session
        if session.confirmed < session.released:
            return self.confirm()
        if session.recovered.version < VERSION_OF_LONG_RUNS or not self.unacknowledged and self.is_crowded:
            return self.save(self.checkpoint)
        if self.unacknowledged >= self.options.rounds * round_length(session.machine):
            return self.save(self.commit)
        return self.go_on()

    def go_on(self):
        machine = self.session.machine
        if not machine.is_running:
            return self.end(self.status())
        if self.left == 0:
            return self.end(ENDS["enough"])
        event = self.given() or next_event(self.options, self.session.events, machine)
        return self.end(ENDS[event]) if isinstance(event, str) else self.offer(event)

    def given(self):
        """What comes of the input, before all that the schedule has; None where nothing does."""
        return None if self.supply is None else self.supply.next(self.session.machine)

    def offer(self, event):
        refusal = self.session.refusal_of(event)
        if refusal is None:
            self.session.submit(event)
            if self.supply is not None:
                self.supply.count(event)
            self.left = None if self.left is None else self.left - 1
            return None
        if refusal[1] in SHORTAGES:
            return self.save(self.commit if self.unacknowledged else self.checkpoint)
        return 1

    def end(self, status):
        return self.save(self.commit) if self.unacknowledged else status

    def status(self):
        machine = self.session.machine
        if machine.status is Status.FAULTED:
            return 6
        return 7 if machine.status_word else 0

    def commit(self):
        """With a history, a batch that is durable on the disk is appended to it, before anything else is done."""
        batch = decode_events(bytes(self.session.pending), VERSION_OF_LONG_RUNS)
        reply = self.session.commit()
        if self.keeper is not None and batch and reply.startswith("ack"):
            self.keeper.append(batch)
        return reply

    def checkpoint(self):
        """With an input, how much of it is taken is recorded first."""
        if self.supply is not None:
            self.supply.record(self.session)
        return self.session.checkpoint()

    def save(self, call):
        """None, unless the session can't."""
        if not call().startswith("ack"):
            return 1
        self.acknowledged = self.session.events
        return None

    def confirm(self):
        session = self.session
        ready = session.held[:session.released - session.confirmed]
        self.output[session.confirmed:session.released] = ready
        del session.held[:len(ready)]
        return None
