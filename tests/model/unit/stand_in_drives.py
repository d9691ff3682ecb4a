"""The word `drive` of a `ckrt` made of the model; and wrong parts of it, which the driver has to find."""
import os
import stat
from contextlib import suppress
from dataclasses import replace
from pathlib import Path

from model import feeding
from model import plans
from model import schedules
from model.devices import MemoryDisk
from model.feeding import COUNTERS, RECORD_LENGTH, Slot, Supply, Undriven
from model.layout import Geometry, format_disk
from model.plans import OWNERS, Drive, Options, begin, bounds_of, draw, owner_of, round_length, thread_for
from model.schedules import IN_USE_AT, NOTES_AT, in_use, note_schedule
from unit.stand_in_histories import WRONG_KEEPERS, FileKeeper

OPTIONS = ("--turn", "--rounds-per-commit", "--seed", "--events")
OTHER = "--other-schedule"
SIZES = ("--pages", "--harts", "--journal")


def bytes_of_plain_file(path):
    with suppress(OSError), open(os.open(path, os.O_RDONLY | os.O_NONBLOCK), "rb") as file:
        if stat.S_ISREG(os.fstat(file.fileno()).st_mode):
            return file.read()
    raise Undriven("File", path)


def drive(path, *options, **wrong):
    """The status. A part that is named takes the place of the model's own; the disk and the output are written at the end."""
    is_other, options = OTHER in options, [word for word in options if word != OTHER]
    words = dict(zip(options[::2], options[1::2]))
    numbers = {name: int(word) for name, word in words.items() if name in (*OPTIONS, *SIZES, "--input-from")}
    said, disk, output = numbers.get("--input-from"), Path(path), Path(words["--output"])
    if said is not None and not ("--input" in words and said < COUNTERS):
        raise Undriven("Range")
    if "--image" in words and not disk.exists():
        disk.write_bytes(format_disk(Geometry(*map(numbers.get, SIZES)), Path(words["--image"]).read_bytes()) + bytes(RECORD_LENGTH))
    data = wrong.get("reads", bytes_of_plain_file)(words["--input"]) if "--input" in words else None
    contents, held = bytearray(disk.read_bytes()), bytearray(output.read_bytes() if output.exists() else b"")
    plans.Supply, plans.require_fit = wrong.get("supply", Supply), wrong.get("fit", plans.require_fit)
    plans.owner_of, plans.thread_for = wrong.get("owner", owner_of), wrong.get("thread", thread_for)
    plans.bounds_of, plans.begin = wrong.get("bounds", bounds_of), wrong.get("begin", begin)
    schedules.note_schedule = plans.note_schedule = wrong.get("notes", note_schedule)
    keeper = wrong.get("keeper", FileKeeper)(words["--history"]) if "--history" in words else None
    try:
        return Drive(MemoryDisk(contents), held, Options(*map(numbers.get, OPTIONS), is_other), None, data, said, keeper).run()
    except Undriven as fault:
        raise Undriven(str(fault), *fault.told * wrong.get("tells", True)) from fault
    finally:
        disk.write_bytes(contents)
        output.write_bytes(held)


def bytes_of_any(path):
    """Of a pipe and of a device too."""
    with suppress(OSError), open(os.open(path, os.O_RDONLY | os.O_NONBLOCK), "rb") as file:
        return file.read(4096)
    raise Undriven("File", path)


class Early(Supply):
    """Makes room on the disk, and then looks whether the drive may begin."""

    def __init__(self, session, data, said=None):
        self.make_room(session)
        super().__init__(session, data, said)


class Padding(Supply):
    """Takes a file that is too short for one that has zeros behind it."""

    def __init__(self, session, data, said=None):
        super().__init__(session, data.ljust(4096, b"\0"), said)
        self.data = data


class Forgetful(Supply):
    """Records nothing."""

    def record(self, session):
        pass


class Obedient(Supply):
    """Takes the offset that it is told for what was taken."""

    def __init__(self, session, data, said=None):
        super().__init__(session, data, said)
        self.taken = self.taken if said is None else said


class Trusting(Supply):
    """Takes a slot of another generation, or of another number of events."""

    def __init__(self, session, data, said=None):
        whole, header = feeding.slot_of, feeding.header_of(session.disk, session.geometry, session.recovered.area)

        def slot_of(*place):
            slot = whole(*place)
            return slot and Slot(header.generation, header.events, slot.taken)

        feeding.slot_of = slot_of
        super().__init__(session, data, said)


def fits_always(session, length):
    """Whatever length an output has."""


def owner_of_event(count, machine):
    """The owner changes with each event."""
    return count % OWNERS + 1


def owner_without_tick(count, machine):
    """A round has no tick."""
    return count // (round_length(machine) - 1) % OWNERS + 1


def one_of_63(count, machine):
    """Thread 64 has no round."""
    return count // round_length(machine) % (OWNERS - 1) + 1


def onto_empty(machine, hart, owner, start):
    """The owner goes onto empty harts alone."""
    return machine.planned(hart) if machine.harts[hart] else thread_for(machine, hart, owner, start)


def even_if_it_waits(machine, hart, owner, start):
    """The owner, wherever there is one."""
    return owner if owner in machine.threads else thread_for(machine, hart, owner, start)


def without_owners(machine, hart, owner, start):
    return machine.planned(hart)


def unfolded(machine, hart, owner, start):
    """A start above all that are ready is that of thread 1."""
    greatest = max((number for number in machine.threads if machine.is_ready(number) and number not in machine.harts), default=0)
    return thread_for(machine, hart, owner, start if start <= greatest else 1)


def undrawn(options, count, machine):
    """A seed draws no start."""
    begin, _, steps = bounds_of(options, count, machine)
    return begin, owner_of(count, machine), steps


def drawn_of_63(options, count, machine):
    """No start is that of thread 64."""
    begin, start, steps = bounds_of(options, count, machine)
    return begin, start if options.seed is None else draw(options.seed, count) // 8 % (OWNERS - 1) + 1, steps


def obliging(disk, options, data, said):
    """Each drive goes by its own schedule, whatever is noted."""
    begin(disk, replace(options, is_other=True), data, said)


def unnoted(disk, options, data, said):
    """Looks at the schedule, and notes none."""
    schedules.require_schedule(disk.read(0, len(disk)), options.schedule, options.is_other)


def before_input(disk, options, data, said):
    """Notes the schedule, and then finds the input."""
    begin(disk, options, None, None)
    begin(disk, options, data, said)


def over_the_old(disk, wanted):
    """Writes the note over the one in use."""
    contents = disk.read(0, 4096)
    if schedules.has_notes(contents) and schedules.schedule_of(contents) != wanted:
        disk.write(NOTES_AT[in_use(contents)], wanted.encoding())


def first_alone(disk, wanted):
    """Takes the first note always."""
    contents = disk.read(0, 4096)
    if schedules.has_notes(contents) and schedules.schedule_of(contents) != wanted:
        disk.write(NOTES_AT[0], wanted.encoding())
        disk.write(IN_USE_AT, b"\1")


WRONG_DRIVES = {"reads anything": {"reads": bytes_of_any}, "early": {"supply": Early}, "padding": {"supply": Padding},
                "forgetful": {"supply": Forgetful}, "obedient": {"supply": Obedient}, "trusting": {"supply": Trusting},
                "any output": {"fit": fits_always}, "silent": {"tells": False}, "owner of an event": {"owner": owner_of_event},
                "without the tick": {"owner": owner_without_tick}, "63 owners": {"owner": one_of_63}, "empty harts alone": {"thread": onto_empty},
                "even if it waits": {"thread": even_if_it_waits}, "without owners": {"thread": without_owners}, "unfolded": {"thread": unfolded},
                "undrawn": {"bounds": undrawn}, "drawn of 63": {"bounds": drawn_of_63}, "obliging": {"begin": obliging}, "unnoted": {"begin": unnoted},
                "before input": {"begin": before_input}, "over the old": {"notes": over_the_old}, "first alone": {"notes": first_alone},
                **{which: {"keeper": keeper} for which, keeper in WRONG_KEEPERS.items()}}
