"""Cases of `ckrt profile`: disks with recorded events, and stretches of these; what both sides make of them, in each form."""
import re

from cases.glances import RacesCase, glance_of_program, recording_of, shown
from cases.histories import disk_with_stretches
from model.profiles import Profile


class ProfilesCase(RacesCase):
    """The same, of profiles."""


def profiles_case(chance, case):
    return ProfilesCase(*disk_with_stretches(chance, case))


def costs_in(text):
    """The entries of a text in callgrind's format, in their order: a function and its own steps, or what called, what was called, how
    often, and what that cost. None where a line is none of these."""
    entries, caller, called, count = [], None, None, None
    for line in text.splitlines():
        name, is_pair, value = line.partition("=")
        if re.match(r"#|$|\w+: |fl=", line):
            continue
        if is_pair and name == "fn":
            caller = value
        elif is_pair and name == "cfn":
            called = value
        elif is_pair and name == "calls":
            count = int(value.split()[0])
        elif re.fullmatch(r"0x[0-9a-f]+ \d+", line) and caller:
            steps = int(line.split()[1])
            entries.append((caller, steps) if count is None else (caller, called, count, steps))
            called = count = None
        else:
            return None
    return entries


def sections_of(lines):
    """The first line, and of each section its head and its rows, as words: no page says with how many blanks columns are set apart."""
    first, *sections = "\n".join(lines).split("\n\n")
    return [[first.split()], *[[line.split() for line in section.splitlines()] for section in sections]]


def unlike_tables(wanted, there):
    """None, or where they differ. Of rows with as many steps the thread with the lower number stands first, or what was met first."""
    if len(wanted) != len(there) or wanted[0] != there[0]:
        return f"model {len(wanted)} sections, {wanted[0]}, program {len(there)}, {there[0]}"
    return next((unlike(mine, its) for mine, its in zip(wanted[1:], there[1:]) if mine != its), None)


def difference_of_profiles(ckrt, case, path, tally):
    """None, or where the two differ on a stretch, in one of the forms. The disk's file keeps its bytes."""
    path.write_bytes(case.disk())
    recording, unrecovered = recording_of(case.contents)
    for stretch in case.stretches:
        profile, fault = shown(recording, unrecovered, stretch, Profile())
        tally["profile", fault.fault[6:] if fault else "shown"] += 1
        difference = fault_differs(ckrt, path, stretch, fault) if fault else difference_of_stretch(ckrt, path, stretch, profile, tally)
        if difference:
            return f"profile (from, to {stretch}): {difference}"
    return None if path.read_bytes() == case.contents else "profile changed the disk's bytes"


def fault_differs(ckrt, path, stretch, fault):
    got = glance_of_program(ckrt, "profile", path, stretch)
    return None if got == fault else f"model {fault}, program {got.status, got.fault}"


def difference_of_stretch(ckrt, path, stretch, profile, tally):
    """In each form."""
    table, folded, costs = (glance_of_program(ckrt, "profile", path, stretch, *options).text
                            for options in ((), ("--folded",), ("--callgrind",)))
    difference = difference_of_counted(profile, table, costs)
    tally.update(("line of a profile", "elsewhere" if "elsewhere" in line else kind_of_row(line)) for line in profile.table() if "%" in line)
    return difference or unlike(profile.folded(), folded.splitlines())


def kind_of_row(line):
    words = line.split()[2:]
    return " ".join(words[2:4]) if "waits" in words else words[0]


def difference_of_counted(profile, table, costs):
    """In the forms that tell calls."""
    difference = unlike_tables(sections_of(profile.table()), sections_of(table.splitlines()))
    return difference or difference_of_costs(profile.costs(), costs_in(costs))


def difference_of_costs(wanted, there):
    if there is None:
        return "a line that isn't callgrind's"
    difference = unlike(wanted, there)
    return difference and f"callgrind: {difference}"


def unlike(wanted, there):
    pair = next((pair for pair in zip(wanted, there) if pair[0] != pair[1]), (len(wanted), len(there)))
    return None if wanted == there else "model {}, program {}".format(*pair)
