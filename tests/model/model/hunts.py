"""What `ckrt hunt` tells of runs: what the events of a kept disk come to, how many switches they have, and the table of several seeds."""
from collections import Counter
from copy import deepcopy
from dataclasses import dataclass, field
from hashlib import sha256

from model.devices import MemoryDisk
from model.events import Eof, Input, Run
from model.feeding import next_input
from model.layout import MAGIC, MAKING, SUPERBLOCK_AT
from model.listing import CAUSES, address_text
from model.machine import Machine
from model.processor import Cause
from model.recovery import Unrecovered, recover
from model.threads import Status, WaitKind

DIGITS = 8  # of a digest
SAID = "    said: "
LINE_BYTES = 200  # of the last line of a run, that are shown
MOST_OUTCOMES = 64  # of a kind, that are told apart
MOST_OUTPUTS = 3  # of `exit 0`, that have lines of their own without --rows
MOST_SEEDS = 10  # of an outcome, whose runs are shortened
KINDS = "fault", "deadlock", "exit ", "no end", "waits for input", "exit 0"  # by what an outcome's text begins with, in the order of a table
SEVERAL = 8  # the status where there are several outcomes, or a race or an error of memory
BAD = 9  # that where all runs had one outcome, which isn't `exit 0`
AWAITED = {WaitKind.JOIN: "the end of thread {}", WaitKind.LOCK: "mutex {}", WaitKind.RETAKE: "mutex {}", WaitKind.CONDITION: "condition {}",
           WaitKind.BARRIER: "barrier {}", WaitKind.READ: "read lock {}", WaitKind.WRITE: "write lock {}"}
MUTEX_WAITS = {WaitKind.LOCK, WaitKind.RETAKE}


@dataclass
class Folded:
    """A machine behind events, what they put, and how many steps and switches they have."""
    machine: Machine
    output: bytearray = field(default_factory=bytearray)
    events: int = 0
    steps: int = 0
    switches: int = 0
    running: int | None = None  # the thread of the last run

    def take(self, event):
        """A switch is a run of another thread than the run before."""
        if isinstance(event, Run):
            thread = self.machine.harts[event.hart]
            self.switches += self.running not in (None, thread)
            self.running = thread
        reply, put = self.machine.step(event)
        self.output += put
        self.events += 1
        self.steps += int(reply.split()[1]) if isinstance(event, Run) else 0


def fold(recording):
    folded = Folded(deepcopy(recording.machine))
    for event in recording.events:
        folded.take(event)
    return folded


def is_fed(recording, data):
    """Whether events give bytes of a file, or none, just as a drive does: as soon as there is room, and before all else."""
    machine, taken = deepcopy(recording.machine), 0
    for event in recording.events:
        due = None if data is None else next_input(data, taken, machine)
        if (due or isinstance(event, (Input, Eof))) and event != due:
            return False
        taken += len(event.data) if isinstance(event, Input) else 0
        machine.step(event)
    return True


def text_of_owner(machine, wait):
    """Who has the mutex that is waited for."""
    owner = machine.mutexes[wait.subject].owner if wait.kind in MUTEX_WAITS and wait.subject in machine.mutexes else 0
    return f" (thread {owner} has it)" if owner else ""


def text_of_awaited(machine, wait):
    return f"thread {wait.thread} waits for " + AWAITED[wait.kind].format(
        wait.subject if wait.kind is WaitKind.JOIN else address_text(wait.subject)) + text_of_owner(machine, wait)


def blocker_of(machine, wait):
    """The thread that a wait is for, 0 where it is for none, or ends by itself."""
    if wait.deadline is not None:
        return 0
    if wait.kind is WaitKind.JOIN:
        return wait.subject
    return machine.mutexes[wait.subject].owner if wait.kind in MUTEX_WAITS and wait.subject in machine.mutexes else 0


def circled(machine):
    """The waits of threads that wait for themselves, by those that they wait for."""
    blockers = {wait.thread: blocker_of(machine, wait) for wait in machine.waits}

    def is_reached(thread):
        at, passed = blockers[thread], set()
        while at not in passed and at != thread:
            passed.add(at)
            at = blockers.get(at, 0)
        return at == thread

    return sorted((wait for wait in machine.waits if is_reached(wait.thread)), key=lambda wait: wait.thread)


def text_of_outcome(folded, limit, ignores_output=False):
    """Of a run that was broken off at so many steps or events, if nothing else came first. Outcomes that differ in their output alone may be one."""
    machine = folded.machine
    if machine.status is Status.EXITED:
        digits = "" if ignores_output else f", output {sha256(folded.output).hexdigest()[:DIGITS]}"
        return f"exit {machine.status_word}{digits}"
    if machine.status is Status.FAULTED:
        return f"fault of thread {machine.fault_thread} at {address_text(machine.status_word)}, {CAUSES[Cause(machine.fault_cause)]}"
    if any(map(machine.is_ready, machine.threads)) or any(wait.deadline is not None for wait in machine.waits):
        return ", ".join([f"no end within {limit} steps or events", *(text_of_awaited(machine, wait) for wait in circled(machine))])
    if machine.waits_for_input():
        return "waits for input"
    return "deadlock, " + ", ".join(text_of_awaited(machine, wait) for wait in sorted(machine.waits, key=lambda wait: wait.thread))


def said_of(folded):
    """The last line with a byte that a run put, as it is shown; None where there is none, and of `exit 0`."""
    lines = [line for line in bytes(folded.output).split(b"\n") if line]
    if not lines or (folded.machine.status is Status.EXITED and folded.machine.status_word == 0):
        return None
    shown = "".join(chr(byte) if 32 <= byte < 127 else f"\\x{byte:02x}" for byte in lines[-1][:LINE_BYTES])
    return shown + (".." if len(lines[-1]) > LINE_BYTES else "")


def lines_of_said(said):
    return [] if said is None else [SAID + said]


def known_lines(lines, ignores_output=False):
    """Without what was said before anything but an exit: a run that is kept comes to the same, and may put other bytes before. Where no output
    tells outcomes apart, any may."""
    return [line for above, line in zip(["", *lines], lines) if not line.startswith(SAID) or ": exit " in above and not ignores_output]


@dataclass(frozen=True)
class Options:
    """Of a hunt, but for its seeds."""
    pages: int
    harts: int
    steps: int
    input: str | None = None  # the path of the file that each run reads
    is_raced: bool = False  # whether each run is looked at for races
    ignores_output: bool = False  # whether outcomes that differ in their output alone are one
    is_checked: bool = False  # whether each run is looked at for errors of memory

    def words(self):
        fed = f" --input {self.input}" if self.input else ""
        looks = f"{' --races' if self.is_raced else ''}{' --check' if self.is_checked else ''}"
        asked = f"{looks}{' --ignore-output' if self.ignores_output else ''}"
        return f"--pages {self.pages} --harts {self.harts} --steps {self.steps}{fed}{asked}"


def command_of(image, seed, options):
    """The one that has a seed's outcome again, and keeps it."""
    return f"ckrt hunt {image} --seeds {seed}-{seed} {options.words()} --keep seed-{seed}.disk"


def kind_of(outcome):
    """Its place among the kinds."""
    return max(number for number, begin in enumerate(KINDS) if outcome.startswith(begin))


def told_of(first):
    """The outcomes that are told apart, in their order, of each of which the first seed is given: by kinds, and of a kind those that came
    first."""
    kinds = [sorted((outcome for outcome in first if kind_of(outcome) == kind), key=first.get) for kind in range(len(KINDS))]
    return [outcome for kind in kinds for outcome in kind[:MOST_OUTCOMES]]


@dataclass(frozen=True)
class Row:
    """An outcome that is told apart: how many runs came to it, by which seed first, and what that one's run said."""
    count: int
    first: int
    text: str
    said: str | None = None

    @property
    def is_output(self):
        return kind_of(self.text) == len(KINDS) - 1


def rows_of_outcomes(outcomes, said=None):
    """Of the outcomes by seed, in the order of the seeds."""
    first, counts = {outcome: seed for seed, outcome in reversed(outcomes.items())}, Counter(outcomes.values())
    return [Row(counts[outcome], first[outcome], outcome, (said or {}).get(first[outcome])) for outcome in told_of(first)]


def shown_of(rows, has_rows=False):
    """Those that have lines, by their numbers: all of them, or of more than three outputs of `exit 0` the commonest, which came first among those with
    as many runs."""
    outputs = [row for row in rows if row.is_output]
    shown = outputs if has_rows or len(outputs) <= MOST_OUTPUTS else sorted(outputs, key=lambda row: (-row.count, row.first))[:MOST_OUTPUTS]
    return {number: row for number, row in enumerate(rows, 1) if not row.is_output or row in shown}


def lines_of_rows(image, rows, total, options, has_rows=False):
    """Each row that is shown; then how many outputs there are, where not all of them are; then how many runs have an outcome that isn't told apart."""
    shown, lines = shown_of(rows, has_rows), []
    for number, row in shown.items():
        lines += [f"outcome {number}: {row.count} of {total} runs, first by seed {row.first}: {row.text}", *lines_of_said(row.said),
                  f"    {command_of(image, row.first, options)}"]
    outputs, left = [row.count for row in rows if row.is_output], total - sum(row.count for row in rows)
    if len(shown) < len(rows):
        lines.append(f"outputs of exit 0: {len(outputs)} in {sum(outputs)} of {total} runs, the three commonest above")
    return lines + [f"other outcomes: {left} of {total} runs"] * (left > 0)


def lines_of_table(image, outcomes, options, said=None, has_rows=False):
    """Of the outcomes by seed, in the order of the seeds: each outcome once, with how often it came and by which seed first, and what that seed's
    run said, where it is given."""
    return lines_of_rows(image, rows_of_outcomes(outcomes, said), len(outcomes), options, has_rows)


def status_of(outcomes, found=()):
    """Of the outcomes of all runs, and of what was found in each by a look at it."""
    kinds = {KINDS[kind_of(outcome)] for outcome in outcomes}
    if len(set(outcomes)) > 1 or any(found):
        return SEVERAL
    return 0 if kinds == {"exit 0"} else BAD


def is_in_making(contents):
    """Whether a file is empty, has the mark of a disk that is made or a disk's name behind a closed gate, or is a disk whose program hasn't begun."""
    is_marked = not contents or contents[:SUPERBLOCK_AT] == bytes(SUPERBLOCK_AT) and contents[SUPERBLOCK_AT:].startswith((MAKING, MAGIC))
    return is_marked or has_no_event(contents)


def has_no_event(contents):
    try:
        return recover(MemoryDisk(bytearray(contents))).events == 0
    except Unrecovered:
        return False


def refusal_of_keep(path, folder):
    """What is said, before the first run, of a path in a folder that is to be kept; None where a disk may be made there. Of a folder the first disk is
    looked at. That nothing can be made in a folder isn't told by the folder."""
    disk = path + "outcome-1.disk" if path.endswith("/") else path
    place = folder / disk
    if not place.parent.is_dir():
        return f"the disk {disk}: its folder is missing; make it, or give another path"
    if place.is_symlink() or place.exists():
        return f"the disk {disk}: something has this path already; move that away, or give another path"
    making = place.with_name(place.name + ".making")
    if making.exists() and not is_in_making(making.read_bytes()):
        return (f"the disk {disk}: what has this path with .making behind it is no disk in the making, and is unchanged; move it away, then give the "
                "command again")
    return None


def line_of_kept(seed, path, switches, drawn, among=1):
    """`drawn` is how many switches the drawn run has; None where that is the one that is kept. `among` is of how many seeds it has the fewest."""
    how = "as it was drawn" if drawn is None else f"drawn with {drawn}"
    return f"kept: the run of seed {seed} on {path}, switches: {switches}, {how}" + (f", fewest of {among} seeds" if among > 1 else "")


def is_chosen(seed, switches, among, alone):
    """Whether a run may be kept among those of so many seeds: `alone` has, of the seeds of an outcome in their order, how many switches each one's
    run has where it is kept by itself. All but the last of these seeds had what tries they needed, since another was begun behind them."""
    if not 1 <= among <= min(MOST_SEEDS, len(alone)):
        return False
    *whole, (last, fewest_of_last) = list(alone.items())[:among]
    fewest, best = min(((count, other) for other, count in whole), default=(None, None))
    if seed == last and (fewest is None or fewest_of_last <= switches < fewest):
        return among > 1 or switches == fewest_of_last
    return (seed, switches) == (best, fewest)
