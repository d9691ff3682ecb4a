"""Lines that are fed: malformed ones, random ones for a guest of several threads, and the last ones of a life."""
from model.switches import SWITCHES

MALFORMED = [
    b"", b"   ", b"\t \t", b"jump", b"place 0", b"run 0 x", b"in 4", b"run 0 0", b"tick 4294967296", b"a" * 161, b" " * 161,
    b"a" * 160, b" " * 160, b" " * 160 + b"\r", b" " * 161 + b"\r", b"\r\r", b"commit\r\r", b"place 8 0", b"place 0 0",
    b"place 0 65", b"place 00000000000 0001", b"run 0 65536", b"run -1 5", b"run 0 +5", b"run x 0", b"run 8 x", b"run 9 9",
    b"in zz", b"in 0g", b"in 0", b"in " + b"00" * 65, b"in " + b"00" * 64 + b"0", b"in " + b"ab" * 64,
    b"in " + b"zz" * 70, b"eof 1", b"eof\x00", b"tick", b"tick 0", b"tick 0000000000000000000000000000000001",
    b"tick " + b"9" * 53, b"tick 1x", b"tick " + b"9" * 32 + b"x", b"auto 0", b"auto 0 0", b"auto 8 5", b"auto 0 65536",
    b"commit 1", b"quit 1", b"Commit", b"PLACE 0 1", b"in AbcD", b"\xff\xfe", b"place\x0b0 1", b"run 0 1 1", b"place 0 1 1",
    b"  tick\t 1  ", b"tick 1\r", b"in", b"in 41 42", b"tick \xb2", b"run 18446744073709551616 1",
    b"run 0 18446744073709551617", b"place 256 1", b"place 0 257",
]
GOOD = [b"place 0 1", b"run 0 77", b"in 41ff", b"eof", b"tick 12", b"auto 0 3", b"commit", b"quit"]
MALFORMED_LONG_RUNS = [
    b"runlong", b"runlong 0", b"runlong 0 0", b"runlong 0 1000001", b"runlong 8 1", b"runlong 0 x", b"runlong x 0", b"runlong 0 1 1",
    b"Runlong 0 1", b"run long 0 1", b"runlong 0 4294967297", b"runlong 0 00065536", b"runlong 8 x",
]
ODD_BYTES = b" \t\r\x00\x0b0189afAFgx-+\x80"


def joined(chance, lines):
    return b"".join(line + (b"\r\n" if chance.random() < 0.02 else b"\n") for line in lines)


def malformed_line(chance):
    return chance.choice(MALFORMED + MALFORMED_LONG_RUNS * 3 if SWITCHES.long_runs else MALFORMED)


def with_long_runs(chance, lines):
    """Some runs are long ones, by name."""
    if not SWITCHES.long_runs:
        return lines
    return [line.replace(b"run ", b"runlong ") if line.startswith(b"run ") and chance.random() < 0.3 else line for line in lines]


def mangled(chance):
    """A good line with a byte or two changed, added or dropped."""
    line = bytearray(chance.choice(GOOD + [b"runlong 0 77"] * 2 if SWITCHES.long_runs else GOOD))
    for _ in range(chance.choice([1, 1, 2])):
        at, byte = chance.randrange(len(line) + 1), bytes([chance.choice(ODD_BYTES)])
        line[at:at + chance.choice([0, 1])] = chance.choice([byte, byte, b""])
    return bytes(line)


def random_lines(chance, harts):
    """Places, runs, input and ticks for a guest of several threads."""
    lines = [b"place 0 1", b"run 0 %d" % chance.choice([5, 40, 80, 80, 80, 120])]
    commits, malformed = chance.choice([0, 0.03, 0.1]), chance.choice([0, 0, 0.05])
    lengths = chance.choice([[1, 2, 4, 8, 13, 25], [1, 2, 4, 8, 13, 25], [20, 40, 90, 150]])
    for _ in range(chance.choice([10, 30, 60])):
        if chance.random() < malformed:
            lines.append(malformed_line(chance))
            continue
        if chance.random() < commits:
            lines.append(b"commit")
        hart = chance.randrange(harts if chance.random() < 0.97 else 8)
        steps = chance.choice(lengths)
        ticks = 4294967295 if chance.random() < 0.01 else chance.choice([1, 1, 2, 3, 4, 5, 10])
        kinds = [b"auto %d %d" % (hart, steps), b"place %d %d" % (hart, chance.choice([1, 2, 3, 3, 4, 4, 5, 5, 6, 7])),
                 b"run %d %d" % (hart, steps), b"in " + b"%02x" % chance.randrange(256) * chance.choice([1, 1, 2, 3]),
                 b"eof", b"tick %d" % ticks]
        lines += chance.choices(kinds, [50, 12, 23, 5, 0.5, 9])
    return with_long_runs(chance, lines)


def last_lines(chance, harts, dump_steps):
    """Lets the threads go on for a while, asks which are ready, and has the log printed."""
    lines, hart = [], harts - 1
    for _ in range(chance.choice([1, 2])):
        lines += [b"auto %d 60" % hart] * 8 + [b"commit", b"tick 50", b"in 4142"]
    lines += [b"place %d %d" % (hart, thread) for thread in range(1, 9)] + [b"place 0 2", b"commit"]
    lines += [b"tick 4294967295"] * 3 + [b"auto 0 9", b"place 0 2"]
    return lines + [b"run 0 %d" % min(dump_steps, 4000), b"commit"] * (dump_steps // 4000 + 1)
