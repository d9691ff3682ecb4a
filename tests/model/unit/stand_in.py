"""A `ckrt` made of the model over a file, to try the driver with; and wrong ones, which the driver has to find.

Words: a name in WRONG, WRONG_DRIVES, WRONG_CALLS, WRONG_HISTORIES or WRONG_PARTS, or `right`, then those of `ckrt run`, `ckrt inspect`, `ckrt calls`,
`ckrt calls --history`, `ckrt history`, `ckrt drive`, or `ckrt format` on a file of the disk's size.
"""
import os
import sys
from contextlib import suppress
from itertools import groupby

from cases.formats import MAKING, NAME
from cases.histories import is_turned
from model.beside import Unkept
from model.call_lines import History
from model.devices import DeviceFault, MemoryDisk
from model.feeding import Undriven
from model.layout import CLOSED, Geometry, format_onto, write_gate
from model.lines import reply_lines
from model.listing import OutOfRange, listing
from model.recovery import Unrecovered, pick_area, read_superblock
from model.session import Session
from model.switches import SWITCHES
from unit.stand_in_drives import WRONG_DRIVES, drive
from unit.stand_in_histories import (WRONG_CALLS_OF_HISTORIES, WRONG_HISTORIES, WRONG_PARTS, calls_of_history, history, listing_of_history,
                                     part_of_history)


class FileDisk:
    """Goes on behind short transfers; a call that fails is a fault."""

    def __init__(self, path):
        self.file = os.open(path, os.O_RDWR)
        self.length, self.syncs = os.fstat(self.file).st_size, 0

    def __len__(self):
        return self.length

    def read(self, at, length):
        data, length = b"", max(0, min(length, self.length - at))
        while len(data) < length:
            data += self.ask(os.pread, length - len(data), at + len(data))
        return data

    def write(self, at, data):
        while data:
            count = self.ask(os.pwrite, data, at)
            at, data = at + count, data[count:]

    def sync(self):
        self.syncs += 1
        self.ask(os.fsync)

    def ask(self, call, *words):
        try:
            return call(self.file, *words)
        except OSError as error:
            raise DeviceFault from error


class Without(FileDisk):
    """Leaves one sync in three out."""

    def sync(self):
        self.syncs += 1
        if self.syncs % 3:
            super().sync()


class Short(FileDisk):
    """Takes a short write for a whole one."""

    def write(self, at, data):
        self.ask(os.pwrite, data, at)


class Again(FileDisk):
    """Asks once more where a call fails."""

    def ask(self, call, *words):
        try:
            return super().ask(call, *words)
        except DeviceFault:
            return super().ask(call, *words)


class Split(FileDisk):
    """Writes a batch in two calls."""

    def write(self, at, data):
        for part in (data[:1], data[1:]) if 1 < len(data) < 4096 else (data,):
            super().write(at, part)


class Hopeful(Session):
    """Tries again after a fault of the disk."""

    @property
    def has_failed(self):
        return False

    @has_failed.setter
    def has_failed(self, value):
        pass


class Printer:
    def show(self, replies):
        data = "".join(reply + "\n" for reply in replies).encode()
        while data:
            data = data[os.write(1, data):]

    def end(self):
        pass


class Late(Printer):
    """Keeps its replies till the end."""

    def __init__(self):
        self.kept = []

    def show(self, replies):
        self.kept += replies

    def end(self):
        super().show(self.kept)


def lines_fed():
    """A line without its end as soon as it is there."""
    waiting, has_ended = b"", False
    while not has_ended:
        data = os.read(0, 65536)
        waiting, has_ended = waiting + data, not data
        *lines, waiting = waiting.split(b"\n")
        yield from (line.removesuffix(b"\r") for line in lines)
    if waiting:
        yield waiting


def run(path, disk=FileDisk, session=Session, printer=Printer):
    printer = printer()
    served = session(disk(path))
    printer.show(served.take_output())
    for line in lines_fed():
        replies = reply_lines(served, line)
        if replies is None:
            break
        printer.show(replies)
    printer.end()


def inspect(path, *options):
    at = int(options[options.index("--at") + 1]) if "--at" in options else None
    with open(path, "rb") as file:
        Printer().show(listing(bytearray(file.read()), at, "--code" in options).splitlines())


def is_end(line):
    return " is over " in line


def backward(lines):
    """The ends of waits at one position in their opposite order."""
    groups = groupby(lines, key=lambda line: (line.split()[0], is_end(line)))
    return [line for (_, are_ends), group in groups for line in (reversed(list(group)) if are_ends else group)]


def without_older(contents):
    """The disk with the gate of the area that isn't in use closed."""
    disk = MemoryDisk(contents)
    geometry = read_superblock(disk)
    write_gate(disk, geometry.area_at(1 - pick_area(disk, geometry)), CLOSED)
    return contents


def calls(path, *options, told=lambda lines: lines, seen=lambda contents: contents):
    """`told` says which lines are printed, `seen` what is read."""
    ends = dict(zip(options[::2], map(int, options[1::2])))
    stretch = ends.get("--from"), ends.get("--to")
    if is_turned(*stretch):
        raise OutOfRange
    with open(path, "rb") as file:
        Printer().show(told(History(seen(bytearray(file.read()))).lines(*stretch)))


def make(path, image, *options, disk=FileDisk):
    """All options are there. The file is marked first as one that is in the making."""
    values = dict(zip(options[::2], map(int, options[1::2])))
    made = disk(path)
    made.write(NAME.start, MAKING)
    made.sync()
    with open(image, "rb") as file:
        format_onto(made, Geometry(values["--pages"], values["--harts"], values["--journal"]), file.read())


WRONG = {"without a sync": {"disk": Without}, "short": {"disk": Short}, "again": {"disk": Again}, "split": {"disk": Split},
         "hopeful": {"session": Hopeful}, "late": {"printer": Late}}
WRONG_CALLS = {"without ends": {"told": lambda lines: [line for line in lines if not is_end(line)]}, "backward": {"told": backward},
               "short-sighted": {"seen": without_older}}


def main(**switches):
    vars(SWITCHES).update(switches)
    which, word, path, *options = sys.argv[1:]
    wrong = WRONG.get(which, {})
    try:
        if word == "run":
            run(path, **wrong)
        elif word == "drive":
            sys.exit(drive(path, *options, **WRONG_DRIVES.get(which, {})))
        elif word == "history" and {"--part", "--from"} & {*options}:
            Printer().show(part_of_history(path, *options, **WRONG_PARTS.get(which, {})))
        elif (word, path) == ("inspect", "--history"):
            Printer().show(listing_of_history(*options))
        elif word == "history":
            Printer().show(history(path, *options, **WRONG_HISTORIES.get(which, {})))
        elif (word, path) == ("calls", "--history"):
            Printer().show(calls_of_history(*options, **WRONG_CALLS_OF_HISTORIES.get(which, {})))
        elif word == "calls":
            calls(path, *options, **WRONG_CALLS.get(which, {}))
        elif word == "format":
            make(path, *options, **{name: part for name, part in wrong.items() if name == "disk"})
        else:
            inspect(path, *options)
    except (Unrecovered, OutOfRange, DeviceFault, Undriven, Unkept) as fault:
        with suppress(OSError):
            os.write(2, " ".join(getattr(fault, "told", [])).encode() + b"\n" * isinstance(fault, Undriven))
            os.write(2, f"ckrt: {'Device' if isinstance(fault, DeviceFault) else fault}\n".encode())
        sys.exit(1)


if __name__ == "__main__":
    main()
