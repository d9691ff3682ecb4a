"""Reads crates.txt: the groups of crates, and of each crate its group and the names that it lists, all in their order."""
import re
from dataclasses import dataclass, field

from shared.programs import TOP


@dataclass
class Listed:
    groups: dict = field(default_factory=dict)  # the crates of each
    group_of: dict = field(default_factory=dict)
    names: dict = field(default_factory=dict)


def listed(text=None):
    """What crates.txt says, or another text of its form. A group begins with a line `# NAME: what it is`."""
    found, group = Listed(), ""
    for line in ((TOP / "crates.txt").read_text(encoding="utf-8") if text is None else text).splitlines():
        if heading := re.match(r"# (\w+): ", line):
            group = heading[1]
        elif line and not line.startswith("#"):
            crate, _, names = line.partition(":")
            found.groups.setdefault(group, []).append(crate)
            found.group_of[crate], found.names[crate] = group, names.split()
    return found
