"""What has to be there after a cut, by the log: each file as the disk model says, and each promise that was printed.

The bytes of a file are those that were written to it. A range is pending from the call that writes it on until a sync of the
file has answered: what a cut leaves of it is anything. All other bytes have to be there.
"""
from dataclasses import dataclass, field, replace

from logged_disk import NOTES
from shared.comparing import first_difference
from shared.guests import MASK, generator
from shared.reading import read_disk, recovered

TABLE = 0x30FC
WITH_BYTES = {"write", "part"}  # notes behind whose line there are bytes, so many as its last word says
OUTPUT = ".out"  # behind the name of a disk


class Finding(Exception):
    """Something that no cut may leave."""


def output_of(seed, count):
    """What the guest puts: of each number of the generator the sum of all so far that chose the same word of a table."""
    numbers, table, put = generator(seed), {}, bytearray()
    for _ in range(count):
        number = next(numbers)
        place = number & TABLE
        table[place] = table.get(place, 0) + number & MASK
        put.append(table[place] & 0xFF)
    return bytes(put)


@dataclass
class Ranges:
    """Ranges of a file that are pending."""

    of: list = field(default_factory=list)

    def settled(self, size):
        """The ranges up to a size that aren't pending."""
        at = 0
        for begin, end in sorted(self.of):
            if begin > at:
                yield at, min(begin, size)
            at = max(at, end)
        if at < size:
            yield at, size


@dataclass
class File:
    content: bytearray = field(default_factory=bytearray)
    pending: Ranges = field(default_factory=Ranges)

    def write(self, offset, data):
        """What lies between the end and a write behind it comes to the file with that write, as zeros."""
        begin = min(offset, len(self.content))
        self.extend(offset)
        self.content[offset:offset + len(data)] = data
        self.pending.of.append((begin, offset + len(data)))

    def take_over(self, name, offset, data):
        """A part of what a killed program has left: of its last write perhaps a part, which is pending all the same."""
        self.check(name, data, offset, offset + len(data))
        self.extend(offset + len(data))
        self.content[offset:offset + len(data)] = data

    def end_at(self, name, size):
        """How long that is, of which all parts were taken over."""
        self.check(name, self.content[:size])
        self.extend(size)
        del self.content[size:]

    def extend(self, size):
        self.content.extend(bytes(max(0, size - len(self.content))))

    def check(self, name, found, first=0, last=None):
        """Looks whether the bytes from the first on, up to the last or to the end, are found where they aren't pending."""
        for begin, end in self.pending.settled(len(self.content)):
            begin, end = max(begin, first), end if last is None else min(end, last)
            part, wanted = found[max(0, begin - first):max(0, end - first)], self.content[begin:end]
            if part != wanted:
                at = first_difference(part, wanted)
                raise Finding(f"{name}: byte {begin + at} was synced as {wanted[at]:02x}, and is {part[at:at + 1].hex() or 'missing'}")


@dataclass
class Run:
    """What was promised of a disk, by what its program printed and by the parent's notes."""

    wanted: bytes  # the output at the guest's end
    formatted: int = 0  # the printed size
    acknowledged: int = 0
    printed: int = 0  # so many bytes of output, of lines
    kept: int = 0  # so many bytes of output, of drives that ended by themselves
    made: int = 0  # so many bytes of output, of which a ckrt-files that ended by itself has made files

    def take_line(self, line):
        match line.split():
            case ["formatted", size]:
                self.formatted = int(size)
            case ["ack", number]:
                self.acknowledged = max(self.acknowledged, int(number))
            case ["out", offset, digits]:
                self.take_output(int(offset), bytes.fromhex(digits))

    def take_output(self, offset, data):
        if self.wanted[offset:offset + len(data)] != data or offset > self.printed:
            raise Finding(f"printed {data.hex()} at {offset}, behind {self.printed} bytes")
        self.printed = max(self.printed, offset + len(data))

    def release(self, offset, data):
        """What a drive is about to write to its output."""
        if self.wanted[offset:offset + len(data)] != data:
            raise Finding(f"{len(data)} bytes of output are written at {offset}, which aren't those that are wanted there")

    def right(self, held, _confirmed):
        """How many bytes of an output are right, of which so many are confirmed."""
        return first_difference(held, self.wanted)

    def look_beside(self, folder, name):
        """Looks at what a drive keeps beside disk and output: nothing."""


def numbers(seed, count):
    """What is promised of a disk whose guest puts sums of numbers."""
    return Run(output_of(seed, count))


class State:
    """What is known at a moment of a log. `new_run` says what is promised of a disk that is made, by its seed and its count."""

    def __init__(self, new_run=numbers):
        self.new_run, self.files, self.runs, self.life, self.line = new_run, {}, {}, None, b""

    def after_a_cut(self, folder):
        """The same promises, with the files as they are now."""
        state = State(self.new_run)
        state.runs = {name: replace(run) for name, run in self.runs.items()}
        for name in self.files:
            path = folder / name
            if path.exists():
                state.files[name] = File(bytearray(path.read_bytes()))
        return state

    def take(self, note):
        if note.file == NOTES:
            head, _, data = note.data.partition(b"\n")
            words = head.decode().split()
            if len(data) != (int(words[-1]) if words[0] in WITH_BYTES else 0):
                raise ValueError(f"a note isn't whole, since the kernel hands a long write on in parts: {words}, with {len(data)} bytes")
            self.take_note(words, data)
        else:
            *lines, self.line = (self.line + note.data).split(b"\n")
            for line in lines:
                self.runs[self.life].take_line(line.decode())

    def take_note(self, words, data):
        match words:
            case ["write", name, offset, _]:
                self.files.setdefault(name, File()).write(int(offset), data)
                if name.endswith(OUTPUT):
                    self.runs[name.removesuffix(OUTPUT)].release(int(offset), data)
            case ["synced", name] if name in self.files:
                self.files[name].pending = Ranges()
            case ["part", name, offset, _]:
                self.files.setdefault(name, File()).take_over(name, int(offset), data)
            case ["found", name, size]:
                self.files.setdefault(name, File()).end_at(name, int(size))
            case ["life", name, seed, count, _]:
                self.life, self.line = name, b""
                self.runs.setdefault(name, self.new_run(int(seed), int(count)))
            case ["kept", name, length]:
                self.runs[name].kept = int(length)
            case ["made", name, length]:
                self.runs[name].made = int(length)

    def check(self, folder):
        """Looks at a folder behind a cut."""
        for name, file in self.files.items():
            path = folder / name
            file.check(name, path.read_bytes() if path.exists() else b"")
        for name, run in self.runs.items():
            if run.formatted:
                check_run(folder, name, run)


def check_run(folder, name, run):
    disk, output = folder / f"{name}.disk", folder / f"{name}.out"
    if not disk.exists() or disk.stat().st_size != run.formatted:
        raise Finding(f"{disk.name} was formatted with {run.formatted} bytes, and isn't there as such")
    try:
        events, confirmed = recovered(disk.read_bytes())
    except read_disk.Fault as fault:
        raise Finding(f"{disk.name}: {fault}") from None
    if events < run.acknowledged:
        raise Finding(f"{disk.name} recovers to {events} events, though {run.acknowledged} were acknowledged")
    held = output.read_bytes() if output.exists() else b""
    right = run.right(held, confirmed)
    if max(right, run.printed) < confirmed:
        raise Finding(f"{disk.name} has {confirmed} bytes of output as confirmed, of which {right} are kept and {run.printed} printed")
    if right < run.kept:
        raise Finding(f"{output.name} has {right} right bytes, though a drive had ended with {run.kept}")
    run.look_beside(folder, name)
