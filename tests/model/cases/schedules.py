"""Cases of drives of one disk by several schedules, some with the word that another one may be noted. A disk may have other notes before, or such as
are none, or no note of its program. Behind each drive the disk is listed, and at times it is run by lines."""
import subprocess
from dataclasses import dataclass, field, replace

from cases.driven import TIME_LIMIT, Driven
from cases.drives import DrivesCase, fed_case, unfed_case
from model.listing import listing
from model.schedules import IN_USE_AT, NOTE, NOTES_AT, Schedule, schedule_of
from model.switches import SWITCHES

LINES = b"tick 1\ncommit\n"
SUPERBLOCK_VERSION_AT = 16
NO_NOTES = NOTE.pack(0, 0, 0), NOTE.pack(0, 1, 5), NOTE.pack(5, 2, 5), NOTE.pack(5, 0, 5), NOTE.pack(5, 256, 0)


@dataclass
class SchedulesCase(DrivesCase):
    """`put` are bytes by their offsets that the disk has before; `runs` tells behind which drives it is run by lines."""
    put: dict = field(default_factory=dict)
    runs: list = field(default_factory=list)

    def disk(self):
        disk = super().disk()
        for at, data in self.put.items():
            disk[at:at + len(data)] = data
        return disk


def schedules_case(chance, case):
    """Few schedules, which come again, so that some drives go by what is noted."""
    unfed = unfed_case(chance, case)
    fed = fed_case(chance, unfed) if chance.random() < 0.3 else unfed
    turn, seed = fed.drives[0].turn, chance.choice([0, 1, 77, 2 ** 64 - 1])
    schedules = chance.sample([Schedule(turn), Schedule(turn, seed), Schedule(turn + 1), Schedule(turn + 1, seed), Schedule(turn, 0)], chance.choice([1, 2, 3]))
    count = chance.choice([3, 5, 8])
    drives = [drawn_drive(chance, chance.choice(fed.drives), chance.choice(schedules)) for _ in range(count)]
    feedings = [chance.choice(fed.feedings) for _ in drives]
    runs = [chance.random() < 0.2 for _ in drives]
    put = drawn_bytes(chance, schedules) if chance.random() < 0.5 else {}
    return SchedulesCase(fed.geometry, fed.image, fed.version, drives, fed.behind, fed.data, feedings, put, runs)


def drawn_drive(chance, options, schedule):
    return replace(options, turn=schedule.turn, seed=schedule.seed, events=chance.choice([0, 1, 7, 40]), is_other=SWITCHES.schedules and chance.random() < 0.4)


def drawn_bytes(chance, schedules):
    """Mostly both notes, each one of a schedule or none, and the byte."""
    if chance.random() < 0.15:
        return {SUPERBLOCK_VERSION_AT: b"\1"}
    notes = [chance.choice([*[it.encoding() for it in schedules], Schedule(2 ** 64 - 1, 9).encoding(), chance.choice(NO_NOTES)]) for _ in NOTES_AT]
    return {IN_USE_AT: bytes([chance.choice([0, 1, 1, 2, 0xA5, 255])]), **dict(zip(NOTES_AT, notes))}


def difference_of_schedules(ckrt, case, folder, tally, count_life):
    """None, or in a few words where the two differ."""
    driven = Driven(ckrt, case, folder, "scheduled", tally, count_life)
    for number, (options, feeding, is_run) in enumerate(zip(case.drives, case.feedings, case.runs), 1):
        before = schedule_of(driven.disk)
        difference = driven.drive(options, feeding)
        tally["schedule", what_became_of(before, schedule_of(driven.disk), options.schedule)] += 1
        difference = difference or is_run and driven.serve(LINES, True) or difference_of_listing(driven)
        if difference:
            return f"drive {number} ({options}, {feeding}): {difference}"
    return None


def what_became_of(before, after, wanted):
    if after == before:
        return "its own" if before == wanted else "stays" if before else "none"
    return "another is noted" if before else "noted"


def difference_of_listing(driven):
    shown = subprocess.run([driven.ckrt, "inspect", driven.path], capture_output=True, timeout=TIME_LIMIT).stdout.decode()
    wanted = listing(driven.disk)
    return None if shown == wanted else f"listing: {wanted.splitlines()[-2:]} of the model, {shown.splitlines()[-2:]} of the program"
