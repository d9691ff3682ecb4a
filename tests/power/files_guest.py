"""A guest with files on a file system that is cut, and what ckrt-files makes of its output there.

The guest is tests/programs/files/tables.c. It appends to its files, and renames each once it is whole: so all that its files ever
have is a beginning of what the same program leaves here. Or it is an ordinary program of a source package.
"""
import os
import re
import shutil
import subprocess
import tempfile
from dataclasses import dataclass
from functools import lru_cache
from pathlib import Path

from promises import Finding, Run
from shared.comparing import first_difference
from shared.disks import Layout
from shared.tried import given_of, image_of, link_tried, run_tried_here, sources_of
from shared.with_files import MAKER, OWN, PROGRAMS, Program, build, left_unchanged, run_here, tree_of
from work import Place, drive_again, format_again, said

PROGRAM = Program("tables", [PROGRAMS / "tables.c"])
PART = ".part"  # behind the name of a file that isn't whole
LOCK = {"lock": b""}  # a file that is there until the end
SHORTEST, LONGEST = 0.02, 0.2  # seconds until a kill of ckrt-files
KILLED = 0.5  # how many of its runs
MAKER_LACKS = "maker"  # a control: none of its syncs is made
MEBIBYTE = 1 << 20
MORE = "more"  # what the names of disks with more pages begin with
RHYTHM = {"turns": (5_000, 30_000, 200_000), "events": (100, 1_000, 10_000), "calls": (0, 20, 150, 600, 3_000), "turns_behind": (200_000, 1_000_000)}  # of a package
LONGEST_FRAME = 64 + 1_023 + 4_096 + 1  # bytes
BEFORE_THE_CUT = re.compile(rb"has \d+ bytes, and .* was made of \d+: ")  # how ckrt-files refuses an output that a cut has left shorter


@dataclass
class FilesPlace(Place):
    """As Place, with one image for all disks, of which some have more pages."""

    pages: int = 32
    more_pages: int = 512
    turns: tuple = 2_000, 10_000, 65_535
    events: tuple = 30, 100, 300, 10_000
    calls: tuple = 0, 20, 150, 600
    turns_behind: tuple = 5_000, 65_535
    built: Path = None

    def image(self, _name):
        return self.built

    def pages_of(self, name):
        return self.more_pages if name.startswith(MORE) else self.pages


@lru_cache(64)
def made_of(data):
    """What ckrt-files makes of some bytes of an output, in a new folder."""
    with tempfile.TemporaryDirectory() as room:
        output, made = Path(room) / "output", Path(room) / "made"
        output.write_bytes(data)
        words = [MAKER, output, made]
        done = said(words)
        if done.returncode:
            raise Finding(f"of {len(data)} bytes: {done.stderr.decode()}")
        return tree_of(made, {".ckrt-files"})


def check_parts(found, wanted):
    """Each file of our guest has to be a beginning of one that is there at the end, where it is whole if it has its name."""
    for name, data in found.items():
        whole = wanted.get(name.removesuffix(PART), b"")
        if name in LOCK and not data:
            continue
        check_beginning(name, data, whole)
        if data != whole and name not in OWN and not name.endswith(PART):
            raise Finding(f"{name} has {len(data)} bytes and its name")


def check_beginning(name, data, whole):
    if (data is None) != (whole is None) or data and not whole.startswith(data):
        raise Finding(f"{name} has {data and data[-40:]!r} at its end, which is no beginning of what is right")


def check_beginnings(found, wanted):
    """Each file of a program that only appends has to be a beginning of the one that is there at the end."""
    for name, data in found.items():
        if name not in wanted:
            raise Finding(f"{name} is made, which isn't there at the end")
        check_beginning(name, data, wanted[name])


def check_nothing(_found, _wanted):
    """Any file may be there before the end of a program that writes in place."""


@dataclass
class FilesRun(Run):
    """What was promised of a disk of this guest. `wanted` is by the names of files."""

    keeps_order: bool = False  # whether the file system shows no byte behind a cut that wasn't written
    check: object = check_parts  # what has to be so of the files that a beginning of the output makes
    sure: bytes = b""  # what was confirmed of the output: by no way may another byte come there
    released: bytes = b""  # what was ever written to the output: nor here

    def release(self, offset, data):
        before = self.released[offset:offset + len(data)]
        if offset > len(self.released) or not data.startswith(before):
            raise Finding(f"{len(data)} bytes of output are written at {offset}, where others were written before, or none up to there")
        self.released += data[len(before):]

    def right(self, held, confirmed):
        if not held.startswith(self.sure[:len(held)]):
            raise Finding(f"byte {first_difference(held, self.sure)} of the output is another one than at the cut before")
        count = max(confirmed, self.kept)
        if count > len(self.released) or not self.released.startswith(held[:count]):
            raise Finding(f"{count} bytes of output are confirmed, which aren't those that were written")
        self.check(made_of(held[:count]), self.wanted)
        if self.keeps_order:
            self.check(made_of(held), self.wanted)
        self.sure = max(self.sure, held[:count], key=len)
        return len(held)


class Files:
    """Disks that such guests work on, and folders on the same file system that are made of their outputs meanwhile."""

    least_cuts = 12  # of a recording
    check = staticmethod(check_parts)

    def __init__(self, room):
        room.mkdir()
        self.more = mebibytes_of(FilesPlace.more_pages)
        self.image = build(PROGRAM, room)
        files, out, err, status = run_here(PROGRAM, room)
        if status:
            raise RuntimeError(f"the program ends with {status} here")
        self.wanted = files | {"stdout": out, "stderr": err}

    def place(self, folder, images, ckrt):
        return FilesPlace(folder, images, ckrt, built=self.image)

    def kinds(self, is_first):
        """The disks of a recording that is new."""
        return ["files", MORE] * is_first

    def new_run(self, keeps_order):
        return lambda *_: FilesRun(self.wanted, keeps_order=keeps_order, check=self.check)

    def behind_drive(self, logged, name, keeps_order):
        """Makes files of what is there, maybe up to a kill. Behind a cut that is right once the drive has made up its output again."""
        words, chance = [MAKER, *in_place(logged.place, name)], logged.chance
        if not keeps_order or not words[1].exists():
            return
        lacks = "all" if logged.environment["POWER_LACKS"] == MAKER_LACKS else ""
        environment = {**os.environ, "LD_PRELOAD": logged.environment["LD_PRELOAD"], "POWER_LACKS": lacks}
        seconds = chance.uniform(SHORTEST, LONGEST) if chance.random() < KILLED else None
        size = words[1].stat().st_size
        logged.note(f"making {name}")
        try:
            done = subprocess.run(words, capture_output=True, timeout=seconds, env=environment, check=False)
        except subprocess.TimeoutExpired:
            return
        if done.returncode and not BEFORE_THE_CUT.search(done.stderr):
            raise Finding(f"ckrt-files: {done.stderr.decode()}")
        if not done.returncode:
            logged.note(f"made {name} {size}")

    def go_on(self, place, name, run, chance):
        """Gives the same commands again: what they make has to be what the program leaves here."""
        if not run.formatted:
            format_again(place, name)
        drive_again(place, name, chance)
        output, made = in_place(place, name)
        if run.made and not is_recorded(made, output, run.made):
            raise Finding(f"files were made of {run.made} bytes, and {made.name} doesn't say so")
        if not output.read_bytes().startswith(run.released):
            raise Finding("a byte of output that was written before the cut is another one at the end")
        done = said([MAKER, output, made])
        if done.returncode:
            raise Finding(f"ckrt-files: {done.stderr.decode()}")
        for what, found in ("goes on", tree_of(made, {".ckrt-files"})), ("begins", made_of(output.read_bytes())):
            if found != self.wanted:
                wrong = [it for it in {*found, *self.wanted} if found.get(it) != self.wanted.get(it)]
                raise Finding(f"where ckrt-files {what}, wrong at the end: {', '.join(sorted(wrong))}")
        shutil.rmtree(made)


class Package(Files):
    """As Files, with an ordinary program of a source package in place of ours, on one disk."""

    least_cuts = 20

    def __init__(self, room, tried, folder):
        room.mkdir()
        self.tried, top = tried, sources_of(tried, folder)
        given = given_of(tried, top)
        files, out, err, self.exit = run_tried_here(tried, top, room)
        self.wanted = left_unchanged(files, given) | {"stdout": out, "stderr": err}
        linked = link_tried(tried, top, room)
        self.image = image_of(tried, linked, room / "guest.bin", given)
        self.of_another_byte = image_of(tried, linked, room / "another.bin", with_another_byte(given))
        self.check = check_beginnings if tried.appends else check_nothing
        self.more = mebibytes_of(tried.pages)

    def kinds(self, is_first):
        return ["files"] * is_first

    def place(self, folder, images, ckrt):
        return FilesPlace(folder, images, ckrt, self.tried.pages, exit=self.exit, built=self.image, **RHYTHM)


def mebibytes_of(pages):
    """What a file system has to have beyond the room for small disks, for one of so many pages: twice what that needs."""
    return -(-2 * Layout(pages).size() // MEBIBYTE)


def with_another_byte(given):
    """Files of which the first has another byte in its middle."""
    first, *_ = given
    data = bytearray(given[first])
    data[len(data) // 2] ^= 1
    return {**given, first: bytes(data)}


def is_recorded(made, output, size):
    """Whether a folder knows that it was made of so many bytes of an output, up to the last whole frame."""
    found = re.search(r"^offset (\d+)$", (made / ".ckrt-files").read_text() if (made / ".ckrt-files").exists() else "", re.MULTILINE)
    return found and int(found[1]) >= size - LONGEST_FRAME


def in_place(place, name):
    return place.folder / f"{name}.out", place.folder / f"{name}.files"
