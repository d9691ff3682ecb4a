"""The kinds of cases; each case is a function of its seed alone."""
from dataclasses import dataclass
from random import Random

from cases.beside import beside_case
from cases.call_by_call import Script, flavour_of
from cases.callers import Caller, Digger
from cases.checked import checked_case
from cases.computations import computation
from cases.crowded import Weaver, dense_case
from cases.damage import Damage
from cases.debugged import debugged_case
from cases.drives import drives_case
from cases.formats import format_case
from cases.glances import races_case, timelines_case
from cases.guests import Guest
from cases.halts import halts_case
from cases.histories import histories_case
from cases.hunted import hunts_case
from cases.images import images_case
from cases.inputs import inputs_case
from cases.kept import kept_case
from cases.kitted import Kitted, kit_case
from cases.limits import limit_case
from cases.lived import Living, lived_case
from cases.lockers import cycles_case
from cases.many import many_case
from cases.mixed import mixed_case
from cases.moved import moved_case
from cases.nested import nested_case
from cases.passers import orders_case
from cases.profiled import profiles_case
from cases.raced import raced_case
from cases.rounds import rounds_case
from cases.saved_disks import ChangedArea, asks, serve_and_save, stopped_disk, with_checkpoints
from cases.sharers import PartSharer, Sharer
from cases.schedules import schedules_case
from cases.snapshots import snapshots_case
from cases.stepped import stepped_case
from cases.streams import joined, last_lines, malformed_line, mangled, random_lines, with_long_runs
from cases.timed import timed_case
from cases.traced import cuts_case, fates_case, listings_case, lists_case, parts_case
from cases.unstored import drawn_checks_case
from cases.words import words_case
from model.abi import Call
from model.assembler import call_words, image_of, jump_form
from model.layout import Geometry, format_disk
from model.switches import SWITCHES


@dataclass
class Case:
    """A disk, formatted with an image or given byte by byte, and the lines of each life on it.

    A killed case's program gets a signal as soon as all replies of a life have come. A version is that of a disk which an
    older program formatted.
    """
    geometry: Geometry
    image: bytes
    lives: list
    damaged: bytes | None = None
    is_killed: bool = False
    version: int | None = None

    def disk(self):
        return bytearray(format_disk(self.geometry, self.image, self.version) if self.damaged is None else self.damaged)


def disk_version(chance):
    """Mostly the newest."""
    return 1 if SWITCHES.keys and chance.random() < 0.15 else None


def threads_case(chance, seed):
    """Several threads that make random calls, run in turn on several harts."""
    guest = Guest(chance)
    geometry = Geometry(chance.choice([16] * 30 + [17]), chance.choice([1, 2, 2, 3, 8]), chance.choice([4096, 4096, 65536]))
    lines = random_lines(chance, geometry.harts) + last_lines(chance, geometry.harts, guest.dump_steps)
    return Case(geometry, guest.image, [joined(chance, lines)], version=disk_version(chance))


def calls_case(chance, seed):
    """Call by call, chosen with a look at the model."""
    version = disk_version(chance)
    script = Script(chance, flavour_of(seed), version=version)
    return Case(script.geometry, script.image, [joined(chance, script.lines)], version=version)


def processor_case(chance, seed):
    """Random instructions, at times step by step."""
    image, before, length = computation(chance)
    lines = [b"place 0 1"]
    if chance.random() < 0.5:
        lines += [b"run 0 %d" % before] + [b"run 0 1"] * chance.choice([0, length])
    lines += [b"run 0 %d" % chance.choice([500, 2000]), b"commit", b"run 0 1500", b"commit"]
    lines = with_long_runs(chance, lines)
    return Case(Geometry(16, 1, 4096), image, [joined(chance, lines)])


def lines_case(chance, seed):
    """Mostly malformed lines, for a guest that puts what it gets."""
    echo = call_words(Call.GETC) + call_words(Call.PUTC) + [jump_form(0, -16)]
    fed = [b"place 0 1", b"run 0 3"]
    for _ in range(chance.choice([20, 60])):
        data = b"%02X" % chance.randrange(256) * chance.choice([1, 2, 63, 64])
        options = [malformed_line(chance), b"in " + data, b"auto 0 %d" % chance.choice([1, 20, 300]), b"commit",
                   b"tick %d" % chance.choice([1, 4294967295]), b"eof", b"quit", mangled(chance)]
        fed += chance.choices(options, [50, 10, 15, 5, 10, 0.5, 0.5, 9])
    data = joined(chance, fed + [b"commit"])
    ends = [data[:-1], data + b"commit\r", data + b"x" * chance.choice([160, 161]), data + b" " * 160 + b"\r", data]
    return Case(Geometry(16, chance.choice([1, 3, 8]), 4096), image_of(echo), chance.choices(ends, [30, 10, 10, 5, 45]))


def lives_of(chance, lines):
    """The lines cut into lives: a life ends by a quit, a cut line or the end of input, and some lines come again."""
    lives = []
    for _ in range(chance.choice([1, 2, 3])):
        cut = chance.randrange(len(lines) + 1)
        ends = [b"", b"commit\n", b"quit\nplace 0 1\n", chance.choice([b"commit", b"auto 0 5", b"tick 1\r", b"com", b"\r", b" "])]
        lives.append(joined(chance, lines[:cut]) + chance.choice(ends))
        if chance.random() < 0.5:
            lines = lines[max(0, cut - chance.randrange(4)):]
    return lives + [joined(chance, lines)]


def lives_case(chance, seed):
    """Several lives on one disk, of either guest."""
    case = (threads_case if seed % 2 else calls_case)(chance, seed // 2)
    case.lives = lives_of(chance, case.lives[0].splitlines())
    return case


def disks_case(chance, seed):
    """Damaged disks; where one is recovered nevertheless, some lines are served."""
    damage = Damage(chance)
    data = b"auto 0 20\ntick 5\nin 41\nauto 0 9\nrun 0 300\ncommit\ntick 1\ncommit\n"
    return Case(damage.geometry, b"", [data], damaged=bytes(damage.disk))


def killed_case(chance, seed):
    """Three lives, each killed when its replies have come; the next begins some lines before."""
    version = disk_version(chance)
    script = Script(chance, flavour_of(seed), 60, version)
    left, lives = script.lines, []
    while left and len(lives) < 3:
        cut = chance.randrange(1, len(left) + 1)
        lives.append(joined(chance, left[:cut]))
        left = left[max(0, cut - 5):]
    return Case(script.geometry, script.image, lives, is_killed=True, version=version)


def limits_case(chance, seed):
    """Counts, tables, queues and the journal filled to their ends."""
    return Case(*limit_case(chance, seed))


def guest_case(chance, seed):
    """A case of either guest, or at times one that fills something or computes."""
    kind = chance.choices([threads_case, calls_case, limits_case, processor_case], [6, 8, 1, 1])[0]
    return kind(chance, seed)


def cut_lines(chance, case):
    """The lines of the first life, cut in two."""
    lines = case.lives[0].splitlines()
    cut = chance.randrange(1, len(lines) + 1)
    return lines[:cut], lines[cut:]


def saved_case(chance, seed):
    """A disk with a saved state that the model reached, and the lines that are left."""
    case = guest_case(chance, seed)
    before, after = cut_lines(chance, case)
    disk = case.disk()
    serve_and_save(chance, disk, before)
    lives = lives_of(chance, with_checkpoints(chance, after, 0.05)) + [b"checkpoint\n"]
    if chance.random() < 0.4:
        ChangedArea(chance, disk).crowd()
        lives.insert(0, joined(chance, asks(chance, case.geometry.harts)))
    return Case(case.geometry, case.image, lives, bytes(disk))


def tables_case(chance, seed):
    """A saved state, changed: mostly one that is well-formed no more."""
    case = guest_case(chance, seed)
    disk = case.disk()
    serve_and_save(chance, disk, cut_lines(chance, case)[0])
    area = ChangedArea(chance, disk)
    if chance.random() < 0.6:
        area.crowd()
    area.damage()
    return Case(case.geometry, case.image, [joined(chance, asks(chance, case.geometry.harts))], bytes(disk))


def stopped_case(chance, seed):
    """A disk as a stop within a commit or checkpoint leaves it."""
    case = guest_case(chance, seed)
    disk, after = stopped_disk(chance, case.disk(), cut_lines(chance, case)[0])
    return Case(case.geometry, case.image, [joined(chance, after), joined(chance, asks(chance, case.geometry.harts))], bytes(disk))


def whole_lines(data):
    """Without a last line that only the end of input would end."""
    return data[:data.rfind(b"\n") + 1]


def checkpoints_case(chance, seed):
    """Lives with checkpoints, at times killed."""
    case = guest_case(chance, seed)
    lines = with_checkpoints(chance, case.lives[0].splitlines(), chance.choice([0.02, 0.1, 0.3]))
    case.lives, case.is_killed = lives_of(chance, lines), chance.random() < 0.2
    if case.is_killed:
        case.lives = [whole_lines(life).replace(b"quit\n", b"") for life in case.lives]
    return case


def turns_case(chance, guest):
    """The guest's threads, run in turn."""
    geometry = Geometry(16, chance.choice([1, 2, 2, 3, 8]), 65536)
    lines = [line for _ in range(chance.choice([1, 2, 4])) for line in [*random_lines(chance, geometry.harts), b"tick 20"]]
    return Case(geometry, guest.image, [joined(chance, lines)], version=disk_version(chance))


def of_guests(guest, kind, share):
    """A kind whose cases are made of turns of such a guest, for this share of them, or of any guest's case."""
    return lambda chance, seed: kind(chance, turns_case(chance, guest(chance)) if chance.random() < share else guest_case(chance, seed))


def digging_case(chance):
    """Threads with deep stacks, in longer turns."""
    turns = [(chance.choice([1, 1, 2, 3]), chance.choice([100, 1000, 2000, 5000])) for _ in range(chance.choice([4, 8, 12]))]
    lines = [line for thread, steps in turns for line in (b"place 0 %d" % thread, b"run 0 %d" % steps)]
    return Case(Geometry(16, 1, 65536), Digger(chance).image, [joined(chance, [*lines, b"commit"])])


def profiled_case(chance, seed):
    if chance.random() < 0.1:
        return profiles_case(chance, digging_case(chance))
    return of_guests(Caller, profiles_case, 0.85)(chance, seed)


def of_sharers(kind, share):
    """The same, of threads that share words."""
    return of_guests(Sharer, kind, share)


def kitted_case(chance, seed):
    """Every other one is plain."""
    return kit_case(chance, turns_case(chance, Kitted(chance)), seed % 2 == 0)


def of_guest(kind):
    """A kind whose cases are made of a guest's case."""
    return lambda chance, seed: kind(chance, guest_case(chance, seed))


KINDS = {
    "threads": threads_case, "calls": calls_case, "processor": processor_case, "lines": lines_case, "lives": lives_case,
    "disks": disks_case, "killed": killed_case, "limits": limits_case, "saved": saved_case, "tables": tables_case,
    "stopped": stopped_case, "checkpoints": checkpoints_case, "formats": format_case, "lists": of_guest(lists_case),
    "fates": of_guest(fates_case), "parts": of_guest(parts_case), "listings": of_guest(listings_case), "cuts": cuts_case,
    "histories": of_guest(histories_case), "races": of_guests(PartSharer, races_case, 0.9), "kit": kitted_case, "orders": orders_case, "nested": nested_case, "cycles": cycles_case,
    "checks": drawn_checks_case,
    "timelines": of_sharers(timelines_case, 0.4),
    "hunts": hunts_case, "debugged": of_sharers(debugged_case, 0.4), "moved": of_sharers(moved_case, 0.6),
    "stepped": of_sharers(stepped_case, 0.6),
    "profiles": profiled_case, "dense": of_guests(Weaver, dense_case, 1),
    "lived": of_guests(Living, lived_case, 1), "timed": timed_case, "raced": raced_case, "checked": checked_case, "many": many_case,
    "words": words_case, "drives": of_guest(drives_case), "halts": of_guest(halts_case),
    "inputs": of_guest(inputs_case), "images": of_guest(images_case), "schedules": of_guest(schedules_case), "mixed": of_guest(mixed_case), "rounds": rounds_case,
    "beside": of_guest(beside_case), "kept": of_guest(kept_case), "snapshots": of_guest(snapshots_case),
}


def case_of(kind, seed):
    return KINDS[kind](Random(f"{kind} {seed}"), seed)
