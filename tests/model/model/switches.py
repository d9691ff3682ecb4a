"""What the program that is compared knows already: each switch is off until it does. A case is a function of these too."""
from contextlib import contextmanager
from dataclasses import dataclass


@dataclass
class Switches:
    """`keys`: thread-specific keys, and saved tables of version 2. `long_runs`: the event of a long run, with keys alone. `programs`: disks that
    note their image, and what is told by that; with long runs alone. `schedules`: disks that note the schedule of their drive; with programs alone."""
    keys: bool = False
    long_runs: bool = False
    programs: bool = False
    schedules: bool = False

    def words(self):
        """The driver's options."""
        return [f"--{name.replace('_', '-')}" for name, is_on in vars(self).items() if is_on]


SWITCHES = Switches()


def newest_version():
    """That of the tables which `format` and checkpoints write."""
    return 2 if SWITCHES.keys else 1


def known_versions():
    return range(1, newest_version() + 1)


def newest_superblock():
    """The version of the superblock that `format` writes."""
    return 3 if SWITCHES.programs else 1


def known_superblocks():
    return {1, newest_superblock()}


@contextmanager
def switched(**wanted):
    """With these switches, for a while."""
    before = dict(vars(SWITCHES))
    vars(SWITCHES).update(wanted)
    try:
        yield
    finally:
        vars(SWITCHES).update(before)
