"""Cases of drives whose input is wrong at times: no plain file, or shorter than what was taken of it. Nothing is changed then, and the
drive that is given again as it should be goes on."""
from dataclasses import dataclass

from cases.driven import Driven, Feeding
from cases.drives import DrivesCase, reading_case, unfed_case
from cases.input_files import NOT_PLAIN, PLAIN
from cases.readers import READERS
from model.devices import MemoryDisk
from model.feeding import COUNTERS, RECORD_LENGTH
from model.plans import Drive


@dataclass
class InputsCase(DrivesCase):
    """`is_made` tells that the disk is missing at first, and each drive names its image."""
    is_made: bool = False


def inputs_case(chance, case):
    """Before each drive of a guest that reads some that can't begin, or have the last byte of their file in sight."""
    fed = reading_case(chance, unfed_case(chance, case), chance.choice(READERS))
    drives, feedings, is_made = [], [], chance.random() < 0.3
    for options, taken in zip(fed.drives, taken_before_each(fed)):
        wrong = [wrong_feeding(chance, len(fed.data), taken) for _ in range(chance.choice([0, 1, 2, 3]))]
        feedings += [*wrong, Feeding(way=chance.choice([*PLAIN]))]
        drives += [options] * (len(wrong) + 1)
    behind = bytes(RECORD_LENGTH) if is_made else fed.behind
    return InputsCase(fed.geometry, fed.image, fed.version, drives, behind, fed.data, feedings, is_made)


def taken_before_each(case):
    disk, output, taken = case.disk(), bytearray(), [0]
    for options in case.drives[:-1]:
        drive = Drive(MemoryDisk(disk), output, options, None, case.data)
        drive.run()
        taken.append(drive.supply.taken)
    return taken


def wrong_feeding(chance, length, taken):
    """Mostly no plain file; at times one that is shorter than what was taken, at times one that has just that. Few have an offset, which
    may be above what was taken."""
    said = chance.choice([None] * 8 + [0, taken + 1, COUNTERS])
    if chance.random() < 0.6:
        return Feeding(way=chance.choice([*NOT_PLAIN]), said=said)
    held = max(0, taken - chance.choice([0, 1, 1, 1, 64, taken]))
    return Feeding(lacking=length - held, said=said, way=chance.choice([*PLAIN]))


def difference_of_inputs(ckrt, case, folder, tally, count_life):
    """None, or in a few words where the two differ."""
    driven = Driven(ckrt, case, folder, "fed", tally, count_life)
    if case.is_made:
        driven.made_by(case.image)
    for number, (options, feeding) in enumerate(zip(case.drives, case.feedings), 1):
        difference = driven.drive(options, feeding)
        if difference is None and list(driven.folder.glob("*.making")):
            difference = "a disk in the making is left"
        if difference is not None:
            return f"drive {number} ({options}, {feeding}): {difference}"
    return None
