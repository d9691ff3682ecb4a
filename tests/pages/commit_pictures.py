"""The pictures of a commit and of a checkpoint, drawn from the calls that the program makes of a disk's file.

A run is traced, and each of its writes and syncs is made again on a copy of the disk, which knows what is durable and what is
pending. Behind each call the pending bytes are overwritten in several ways, as a power cut may leave them, and the program
itself is asked what it recovers to. So each word on what is left is what came, and nothing stands here but names and colours.
"""
from dataclasses import dataclass, field
from pathlib import Path

from shared.lives import events_of
from svg import Picture

LINES = ["place 0 1", "run 0 3", "commit", "tick 5", "checkpoint", "tick 5", "checkpoint", "quit"]
OLD, NEW, PENDING = "#eeeeee", "#cfe8cf", "url(#hatch)"
WIDTH, LEFT, RIGHT, HIGH = 1080, 300, 850, 30


@dataclass
class Disk:
    """The bytes as they read, the pending ranges, and what was written since the picture began."""

    content: bytearray
    pending: list = field(default_factory=list)
    written: list = field(default_factory=list)

    def write(self, at, data):
        self.content[at:at + len(data)] = data
        self.pending.append((at, len(data)))
        self.written.append((at, len(data)))

    def sync(self):
        self.pending.clear()

    def images(self, before):
        """What a power cut may leave, some of it: the pending bytes as they were, as they read, in part, or as others."""
        yield bytes(self.content)
        for fill in (lambda at: before[at], lambda at: 0x00, lambda at: 0xA5, lambda at: 0xFF, lambda at: (before, self.content)[at % 2][at]):
            image = bytearray(self.content)
            for at, length in self.pending:
                image[at:at + length] = bytes(fill(place) for place in range(at, at + length))
            yield bytes(image)


def calls_of(traces, trace, disk):
    """The writes and syncs of a trace, and its replies, in order."""
    for line in trace.splitlines():
        found = traces.CALL.match(line)
        if not found:
            continue
        name, descriptor, path, rest, count = found.groups()
        if path == disk and name == "pwrite64":
            data, numbers = traces.BYTES.match(rest).groups()
            data = bytes.fromhex(data.replace("\\x", ""))
            if len(data) != int(count):
                raise SystemExit(f"of a write of {count} bytes the trace has {len(data)}")
            yield "write", int(numbers.split(",")[-1]), data
        elif path == disk and name in ("fdatasync", "fsync"):
            yield ("sync",)
        elif descriptor == "1" and name == "write":
            yield "reply", bytes.fromhex(traces.BYTES.match(rest)[1].replace("\\x", "")).decode()


def recovered(program, folder, image):
    """How many events an image recovers to, as the program tells."""
    (folder / "left").write_bytes(image)
    return events_of(program, folder / "left")


def what_is_left(program, folder, disk, before):
    """In words, what a power cut right behind the call leaves."""
    counts = sorted({recovered(program, folder, image) for image in disk.images(before)})
    return " or ".join(str(count) for count in counts) + (" event" if counts == [1] else " events")


@dataclass(frozen=True)
class Step:
    """A call, or several of one kind, with the disk behind it and what a power cut may leave then."""

    words: str
    content: bytes
    pending: tuple
    written: tuple
    left: str


def words_of(call, named, count=1):
    if call[0] == "sync":
        return "sync"
    name = named(call[1])
    return f"write {name}" if count == 1 else f"write {name}, {count} calls"


def steps_of(program, folder, before, calls, named):
    """The steps of these calls on a disk that was durable before. Writes to places of one name are one step."""
    disk, steps, count = Disk(bytearray(before)), [], 1
    steps.append(Step("before", bytes(before), (), (), what_is_left(program, folder, disk, before)))
    for at, call in enumerate(calls):
        if call[0] == "sync":
            disk.sync()
        else:
            disk.write(call[1], call[2])
        following = calls[at + 1] if at + 1 < len(calls) else ("end",)
        if call[0] == following[0] == "write" and named(call[1]) == named(following[1]):
            count += 1
            continue
        left = what_is_left(program, folder, disk, before)
        steps.append(Step(words_of(call, named, count), bytes(disk.content), tuple(disk.pending), tuple(disk.written), left))
        count = 1
    return steps


@dataclass(frozen=True)
class Cell:
    """A range of the disk as a box: its name, its width in the picture, and whether its bytes are shown."""

    name: str
    at: int
    length: int
    width: int
    is_shown: bool = False


def touches(ranges, cell):
    return any(at < cell.at + cell.length and cell.at < at + length for at, length in ranges)


def draw_cell(picture, x, y, cell, step):
    fill = PENDING if touches(step.pending, cell) else NEW if touches(step.written, cell) else OLD
    picture.box(x, y, cell.width, HIGH, fill)
    text = step.content[cell.at:cell.at + cell.length].hex(" ") if cell.is_shown else ""
    picture.text(x + cell.width / 2, y + 19, text, "code middle")


def draw_head(picture, cells, title):
    picture.text(16, 24, title, "bold")
    for at, (fill, words) in enumerate([(OLD, "as before"), (PENDING, "written, not durable: any bytes, after a power cut"), (NEW, "durable")]):
        x = 16 + (0, 120, 460)[at]
        picture.box(x, 36, 18, 14, fill)
        picture.text(x + 25, 48, words, "small")
    picture.text(RIGHT + 16, 76, "a power cut here leaves", "small")
    x = LEFT
    for cell in cells:
        picture.text(x + cell.width / 2, 76, cell.name, "small middle")
        x += cell.width


def drawn(title, cells, steps):
    picture = Picture(WIDTH, title)
    draw_head(picture, cells, title)
    for number, step in enumerate(steps):
        x, y = LEFT, 84 + number * (HIGH + 10)
        picture.text(16, y + 19, f"{number}. {step.words}" if number else step.words)
        for cell in cells:
            draw_cell(picture, x, y, cell, step)
            x += cell.width
        picture.text(RIGHT + 16, y + 19, step.left)
    return picture.written()


def commit_cells(at, length):
    """A journal's begin: the gate of a batch, its length and events, and the gate behind."""
    return [Cell("gate", at, 1, 60, True), Cell("length", at + 1, 2, 80, True), Cell("events", at + 3, length, 250, True),
            Cell("gate", at + 3 + length, 1, 60, True), Cell("behind", at + 4 + length, 1, 100)]


def commit_name(at, journal):
    return "the gate" if at == journal else "the batch and a closed gate"


def checkpoint_cells(traces):
    """The area in use with its journal, and the other one with its own."""
    cells = []
    for number in (0, 1):
        area = traces.SMALL.area(number)
        tables = area + traces.BLOCK
        pages = tables + traces.TABLES + traces.BLOCK
        cells += [Cell(f"gate {number}", area, 1, 50, True), Cell("header", area + 8, 32, 50), Cell("tables", tables, traces.TABLES, 60),
                  Cell("pages", pages, traces.BLOCK * (traces.SMALL.pages - 1), 60),
                  Cell("journal", traces.SMALL.journal_at(number), 1, 55, True)]
    return cells


def checkpoint_name(cells):
    """What the place of a write is called."""
    words = {"gate": "the gate of area", "header": "the header of area", "tables": "the tables of area", "pages": "changed pages of area",
             "journal": "the first gate of journal"}

    def named(at):
        index = next(index for index, cell in enumerate(cells) if cell.at <= at < cell.at + cell.length)
        return f"{words[cells[index].name.split()[0]]} {index // 5}"
    return named


def between_acks(calls):
    """The writes and syncs up to each `ack`, but for recovery's own sync, which comes first."""
    found, before = [], []
    for call in calls:
        if call[0] != "reply":
            before.append(call)
        elif call[1].startswith("ack"):
            found.append(before)
            before = []
    found[0].remove(("sync",))
    return found


def behind(content, calls):
    """The bytes of a disk behind these calls."""
    disk = Disk(bytearray(content))
    for call in calls:
        if call[0] == "write":
            disk.write(call[1], call[2])
    return bytes(disk.content)


def pictures(traces, program, folder):
    """All pictures, by the names of their files."""
    folder = Path(folder).resolve()
    disk, image = folder / "disk", folder / "image"
    image.write_bytes(traces.IMAGE)
    traces.traced(program, ["format", str(disk), str(image), *traces.SMALL.words()], [], str(folder))
    formatted = disk.read_bytes()
    trace = traces.traced(program, ["run", str(disk)], LINES, str(folder), shown=4 * traces.BLOCK)
    commit, first, second = between_acks(calls_of(traces, trace, str(disk)))
    committed = behind(formatted, commit)
    saved = behind(committed, first)
    journal, cells = traces.SMALL.journal_at(0), checkpoint_cells(traces)
    journal_cells = commit_cells(journal, len(commit[0][2]) - 3)
    shown = [
        ("commit", "A commit of the events place 0 1 and run 0 3", journal_cells, formatted, commit, lambda at: commit_name(at, journal)),
        ("checkpoint", "The first checkpoint, behind a third event", cells, committed, first, checkpoint_name(cells)),
        ("next_checkpoint", "The next checkpoint, behind a fourth event: the gate of its area is open", cells, saved, second, checkpoint_name(cells)),
    ]
    return {f"{name}.svg": drawn(title, boxes, steps_of(program, folder, before, calls, named))
            for name, title, boxes, before, calls, named in shown}
