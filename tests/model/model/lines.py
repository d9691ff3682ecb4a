"""Lines to replies."""
from dataclasses import dataclass
from enum import IntEnum

from model.abi import ALL_ONES
from model.devices import MemoryDisk
from model.events import INPUT_LIMIT, LONG_RUN, Eof, Input, Place, Run, RunLong, Tick
from model.session import Session
from model.switches import SWITCHES

LINE_LIMIT = 160


class LineRefusal(IntEnum):
    """Why a line isn't a command."""
    Unknown = 31
    Number = 32
    Hex = 33
    Range = 34
    TooLong = 35


class LineFault(Exception):
    def __init__(self, refusal):
        super().__init__(refusal.name)
        self.refusal = refusal


@dataclass(frozen=True)
class Auto:
    """Places the next thread, where there is one, and runs the hart unless that was refused."""
    hart: int
    steps: int


@dataclass(frozen=True)
class Plain:
    """A command that is no event: commit, checkpoint, quit, or the line without words."""
    word: bytes


def words_of(line):
    return [word for word in line.replace(b"\t", b" ").split(b" ") if word]


def number(word, least, greatest):
    if not all(48 <= byte <= 57 for byte in word):
        raise LineFault(LineRefusal.Number)
    if not least <= int(word) <= greatest:
        raise LineFault(LineRefusal.Range)
    return int(word)


def input_bytes(word):
    if len(word) % 2 or any(byte not in b"0123456789abcdefABCDEF" for byte in word):
        raise LineFault(LineRefusal.Hex)
    if len(word) > 2 * INPUT_LIMIT:
        raise LineFault(LineRefusal.Range)
    return bytes.fromhex(word.decode())


def parse(line):
    """The command of a line without its end; the arguments are tested from left to right."""
    if len(line) > LINE_LIMIT:
        raise LineFault(LineRefusal.TooLong)
    match words_of(line):
        case []:
            return Plain(b"")
        case [b"place", hart, thread]:
            return Place(number(hart, 0, 7), number(thread, 1, 64))
        case [b"run", hart, steps]:
            return Run(number(hart, 0, 7), number(steps, 1, 65535))
        case [b"runlong", hart, steps] if SWITCHES.long_runs:
            return RunLong(number(hart, 0, 7), number(steps, 1, LONG_RUN))
        case [b"auto", hart, steps]:
            return Auto(number(hart, 0, 7), number(steps, 1, 65535))
        case [b"tick", count]:
            return Tick(number(count, 1, ALL_ONES))
        case [b"in", data]:
            return Input(input_bytes(data))
        case [b"eof"]:
            return Eof()
        case [(b"commit" | b"checkpoint" | b"quit") as word]:
            return Plain(word)
    raise LineFault(LineRefusal.Unknown)


def lines_of(data):
    """A carriage return before a line feed is dropped; a last line without line feed counts if it isn't empty."""
    *whole, last = data.split(b"\n")
    return [line.removesuffix(b"\r") for line in whole] + ([last] if last else [])


def run_command(session, command):
    """The replies to a command other than quit."""
    if command == Plain(b""):
        return []
    if isinstance(command, Plain):
        reply = session.commit() if command.word == b"commit" else session.checkpoint()
        return [reply] + (session.take_output() if reply.startswith("ack") else [])
    if not isinstance(command, Auto):
        return [session.submit(command)[1]]
    replies = []
    thread, is_placed = session.machine.planned(command.hart), True
    if thread is not None:
        is_placed, reply = session.submit(Place(command.hart, thread))
        replies.append(reply)
    if is_placed:
        replies.append(session.submit(Run(command.hart, command.steps))[1])
    return replies


def reply_lines(session, line):
    """The replies to a line without its end; None where it is quit."""
    try:
        command = parse(line)
    except LineFault as fault:
        session.machine.tally["line", fault.refusal.name] += 1
        return [f"no {int(fault.refusal)} {fault.refusal.name}"]
    return None if command == Plain(b"quit") else run_command(session, command)


def serve(session, data):
    """The reply lines to the input."""
    replies = session.take_output()
    for line in lines_of(data):
        more = reply_lines(session, line)
        if more is None:
            break
        replies += more
    return replies


def serve_disk(contents, data, tally=None):
    """Recovers the disk with these bytes, which change, and serves the input. Raises Unrecovered."""
    return serve(Session(MemoryDisk(contents), tally), data)
