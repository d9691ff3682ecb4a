"""Cases of drives that are stopped at a call of their disk, with a fill over what wasn't synced, and then given again."""
from contextlib import suppress
from dataclasses import dataclass, field, replace

from cases.driven import UNFED, Feeding, contents, first_other
from cases.drives import DrivesCase, difference_of_list, fed_case, unfed_case
from cases.tracing import Plan, traced_run
from model.devices import DeviceFault, MemoryDisk, StoppingDisk, filled
from model.feeding import RECORD_LENGTH
from model.plans import Drive
from model.schedules import NOTES_AT, Schedule
from model.switches import SWITCHES

LAST_CALL = 120  # of those at which a drive is stopped
SYNC = None
LONGEST = 4097


@dataclass
class HaltsCase(DrivesCase):
    """A drive for each stop, which is the number of a call and a fill, and one more that isn't stopped. `noted` is the schedule that the
    second note has before, which is in use then."""
    stops: list = field(default_factory=list)
    noted: Schedule | None = None

    def disk(self):
        return with_note(super().disk(), self.noted)


def with_note(disk, schedule):
    if schedule is not None:
        note = schedule.encoding()
        disk[NOTES_AT[1]:NOTES_AT[1] + len(note)] = note
    return disk


class HaltingDisk(StoppingDisk):
    """Lists its calls, and keeps what was written before the fill is laid over it."""

    def __init__(self, contents, at_call, fill):
        super().__init__(contents, at_call, filled(fill))
        self.listed, self.as_written = [], None

    def write(self, at, data):
        self.listed.append((at, len(data)))
        super().write(at, data)

    def sync(self):
        self.listed.append(SYNC)
        super().sync()

    def stop_if_due(self):
        self.as_written = bytes(self.bytes)
        super().stop_if_due()


def halts_case(chance, case):
    """Mostly with an input. The disk has room for the record, so that nothing but the schedule is written before recovery. At times
    another one is noted there, and mostly the drives may go by theirs then."""
    fed = fed_case(chance, unfed_case(chance, case))
    stops = [stop(chance) for _ in range(chance.choice([1, 2, 4]))]
    options = [chance.choice(fed.drives) for _ in stops] + [fed.drives[-1]]
    behind = fed.behind + bytes(max(0, RECORD_LENGTH - len(fed.behind)))
    feedings = [chance.choice([Feeding()] * 5 + [UNFED])] * len(options)
    noted = Schedule(7, chance.choice([None, 3])) if SWITCHES.schedules and chance.random() < 0.4 else None
    options = [replace(it, is_other=noted is not None) for it in options]
    return HaltsCase(fed.geometry, fed.image, fed.version, options, behind, fed.data[:LONGEST], feedings, stops, noted)


def stop(chance):
    """A call, often one of the first, and a fill."""
    call = chance.choice([chance.randrange(1, 12), chance.randrange(1, LAST_CALL)])
    return call, chance.choice([b"", b"\0", b"\xa5", chance.randbytes(7)])


def halted_drive_of_model(device, output, options, data, tally):
    """The status; None where the disk stopped."""
    with suppress(DeviceFault):
        status = Drive(device, output, options, tally, data).run()
        return None if device.has_stopped else status
    return None


def difference_of_halts(ckrt, case, folder, tally, count_life):
    """None, or in a few words where the two differ."""
    path, out, file = (folder / f"halted.{end}" for end in ("disk", "out", "in"))
    feeding, disk, output = case.feedings[0], case.disk(), bytearray()
    file.write_bytes(case.data)
    out.unlink(missing_ok=True)
    for number, ((call, fill), options) in enumerate(zip(case.stops, case.drives), 1):
        path.write_bytes(disk)
        device = HaltingDisk(disk, call, fill)
        expected = halted_drive_of_model(device, output, options, feeding.data(case.data), tally)
        tally["halt", "stopped" if expected is None else f"status {expected}"] += 1
        count_life(1)
        words = ["drive", path, "--output", out, *options.words(), *feeding.words(file)]
        traced = traced_run(ckrt, path, [], Plan(kill_at=call), words)
        where = f"drive {number} ({options}), stopped at call {call}"
        difference = difference_of_halt(device, expected, traced, path, contents(out), output)
        if difference is not None:
            return f"{where}: {difference}"
        disk = device.bytes
    return difference_of_rest(ckrt, case, disk, output, folder, tally, count_life)


def difference_of_halt(device, expected, traced, path, shown, output):
    if traced.calls != device.listed:
        place = first_other(traced.calls, device.listed)
        return f"call {place + 1}: model {device.listed[place:place + 1]}, program {traced.calls[place:place + 1]}"
    if traced.status != expected:
        return f"status {expected} of the model, {traced.status} of the program"
    if shown != output:
        return "the output's bytes"
    written = path.read_bytes()
    return None if written == device.as_written else f"the disk's bytes, first at {first_other(written, device.as_written)}"


def difference_of_rest(ckrt, case, disk, output, folder, tally, count_life):
    """The drive behind the last stop, and what one that nothing stopped puts."""
    last = [(case.drives[-1], case.feedings[-1])]
    difference = difference_of_list(ckrt, case, last, folder, "halted", tally, count_life, (disk, output))
    if difference is not None or case.drives[-1].events is not None:
        return difference
    unbroken = bytearray()
    Drive(MemoryDisk(case.disk()), unbroken, case.drives[-1], None, case.feedings[-1].data(case.data)).run()
    return None if contents(folder / "halted.out") == unbroken else "the output isn't that of a drive that nothing stopped"
