"""Random lists of lives: a guest's lines cut into lives, with commits and checkpoints among them, stopped at random calls."""
from cases.saved_disks import FILLS, with_checkpoints
from model.foreseen import Course, image_of_stop
from model.layout import format_disk
from model.lines import LineFault, parse
from model.lives import Life


def commands_of(lines):
    """Of those lines that are commands."""
    commands = []
    for line in lines:
        try:
            commands.append(parse(line.removesuffix(b"\r")))
        except LineFault:
            pass
    return commands


def some_lines(chance, lines):
    """As many as a life gets; a few are given again in the next."""
    count = chance.choice([0, 1, 3, 8, 15, 30])
    given, left = lines[:count], lines[max(0, count - chance.choice([0, 0, 1, 4])):]
    given = [line for line in given if len(line) <= 160]
    fed, share = [], chance.choice([0.05, 0.2, 0.5])
    for line in with_checkpoints(chance, given, chance.choice([0, 0.05, 0.2])):
        fed += [line, b"commit"] if chance.random() < share else [line]
    ends = [[], [b"commit"], [b"checkpoint"], [b"commit", b"checkpoint"], [b"quit", b"commit"], [b"checkpoint", b"checkpoint"]]
    return fed + chance.choice(ends), left


def random_stop(chance, calls):
    """Mostly at one of the calls that the life would make; 0 is never."""
    last = chance.randrange(max(2, calls - 4), calls + 2)
    return chance.choices([0, 1, min(last, 5), chance.randrange(2, calls + 2), last], [30, 4, 10, 30, 26])[0]


def random_fill(chance):
    return chance.choice(FILLS + [chance.randbytes(chance.randrange(1, 8)), b"\xa5\x03\x00\x01\x00\x01"])


def life_list(chance, case):
    """The lives of a case's guest, and their lines."""
    lines = [line for line in case.lives[0].splitlines() if line != b"quit" or chance.random() < 0.1]
    contents, listed, texts = bytes(format_disk(case.geometry, case.image)), [], []
    for _ in range(chance.choice([1, 2, 3, 4, 6, 8])):
        fed, lines = some_lines(chance, lines)
        calls = Course(contents, commands_of(fed)).calls
        listed.append(Life(commands_of(fed), random_stop(chance, len(calls)), random_fill(chance)))
        texts.append(fed)
        contents = image_of_stop(contents, calls, listed[-1].stop_at, listed[-1].fill)
    return listed, texts
