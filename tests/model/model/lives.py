"""Lists of lives: each recovers what the one before left, runs its commands, and may be stopped at a call of its disk."""
from dataclasses import dataclass

from model.devices import DeviceFault, StoppingDisk, filled
from model.layout import Unformatted, format_disk, refusal_of_format
from model.lines import Plain, run_command
from model.session import Session


@dataclass(frozen=True)
class Life:
    """Commands as of lines; the write or sync, counted from 1, at which the disk stops (0: never), and what that lays over
    the pending bytes."""
    commands: list
    stop_at: int = 0
    fill: bytes = b""


@dataclass(frozen=True)
class LifeReport:
    """`recovered` is None where the life did not recover; `left` are the bytes of the disk after it."""
    recovered: int | None
    acknowledged: int
    released_from: int
    released: bytes
    left: bytes


def bytes_shown(replies):
    """Those of the lines of output."""
    return b"".join(bytes.fromhex(reply.split()[2]) for reply in replies if reply.startswith("out"))


def commands_until_quit(commands):
    return commands[:commands.index(Plain(b"quit"))] if Plain(b"quit") in commands else commands


def life_on(contents, life):
    disk = StoppingDisk(contents, life.stop_at, filled(life.fill))
    try:
        session = Session(disk)
    except DeviceFault:
        return LifeReport(None, 0, 0, b"", bytes(disk.bytes))
    recovered = acknowledged = session.events
    released_from, released = session.confirmed, bytes_shown(session.take_output())
    for command in commands_until_quit(life.commands):
        replies = run_command(session, command)
        if replies and replies[0].startswith("ack"):
            acknowledged = session.events
            released += bytes_shown(replies)
    return LifeReport(recovered, acknowledged, released_from, released, bytes(disk.bytes))


def lives(image, geometry, listed):
    """The reports. Raises Unformatted where `format` refuses the geometry or the image."""
    refusal = refusal_of_format(geometry.size, geometry, image)
    if refusal is not None:
        raise Unformatted(refusal)
    contents, reports = bytes(format_disk(geometry, image)), []
    for life in listed:
        reports.append(life_on(contents, life))
        contents = reports[-1].left
    return reports
