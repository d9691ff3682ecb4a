"""Reads disks and histories by examples/read_disk.py, which was written from the pages on their forms alone."""
import contextlib
import io
import re
import sys

from shared.programs import TOP

sys.path.insert(0, str(TOP / "examples"))
import read_disk  # noqa: E402


def events(disk):
    """The lines of the events that the journal of the area in use has, in their order."""
    text = io.StringIO()
    with contextlib.redirect_stdout(text):
        config = read_disk.read_superblock(disk)
        headers = [read_disk.read_header(disk, config.area_at(index)) for index in range(2)]
        used = read_disk.area_in_use(headers)
        read_disk.print_journal(disk, config, used, headers[used].version, headers[used].events)
    return re.findall(r"^    \d+ (.*)$", text.getvalue(), re.MULTILINE)


def disk_ends(disk):
    """How many events the bytes of a disk recover to up to each batch of the journal of the area in use: behind the area, and behind each one.

    It raises read_disk.Fault where they recover to nothing.
    """
    text = io.StringIO()
    with contextlib.redirect_stdout(text):
        count = recovered_by(disk)[0]
    starts = [int(event) - 1 for event in re.findall(r"^  batch at .*\n    (\d+) ", text.getvalue(), re.MULTILINE)]
    return [*starts, count]


def recovered(disk):
    """How many events the bytes of a disk recover to, and the offset behind the last byte of output that they take for confirmed.

    It raises read_disk.Fault where they recover to nothing.
    """
    with contextlib.redirect_stdout(io.StringIO()):
        return recovered_by(disk)


def recovered_by(disk):
    """The same, while the journal is printed."""
    config = read_disk.read_superblock(disk)
    headers = [read_disk.read_header(disk, config.area_at(index)) for index in range(2)]
    used = read_disk.area_in_use(headers)
    headers[used].check()
    return read_disk.print_journal(disk, config, used, headers[used].version, headers[used].events), headers[used].output_offset


def history(data):
    """Of the bytes of a history: how many events came before its first one, the lines of its events, and how many bytes it takes.

    It raises read_disk.Fault where they are none.
    """
    text = io.StringIO()
    with contextlib.redirect_stdout(text):
        first, _, length = read_disk.print_history(data)
    return first, re.findall(r"^    \d+ (.*)$", text.getvalue(), re.MULTILINE), length


def history_ends(data):
    """Of the bytes of a history: how many events it has behind each batch of its long journal, and before the first one; and how many bytes it takes there.

    It raises read_disk.Fault where they are none.
    """
    text = io.StringIO()
    with contextlib.redirect_stdout(text):
        count, _, _ = read_disk.print_history(data)
    ends, begin = {}, None
    for event, journal, gate in re.findall(r"^    (\d+) |^long journal at (\d+)|^  (?:batch at|next free) place (\d+)", text.getvalue(), re.MULTILINE):
        count, begin = int(event or count), int(journal) if journal else begin
        if gate and begin is not None:
            ends[count] = begin + int(gate) + 1
    return ends
