"""The word `history` of a `ckrt` made of the model, with `--part`, its `calls --history` and `inspect --history`, and what keeps a history while it drives;
and wrong ones of these, which the driver has to find."""
from dataclasses import replace
from pathlib import Path

from cases.damage import batch
from cases.histories import is_turned
from model.beside import MARK, KeptHistory, Unkept, begun_from, is_free, lacking, listing_of_kept, part_of, read_front, read_history, recorded_by
from model.feeding import Undriven
from model.layout import BATCH_LIMIT, CLOSED, OPEN, SUPERBLOCK_AT
from model.listing import OutOfRange
from model.snapshots import bytes_without_events


def batches_of(events):
    """Each as long as may be."""
    batches = [b""]
    for encoding in (event.encoding() for event in events):
        if len(batches[-1]) + len(encoding) > BATCH_LIMIT:
            batches.append(b"")
        batches[-1] += encoding
    return [batch(events, b"") for events in batches if events]


def is_named(contents):
    return contents[:1] == bytes([OPEN]) and contents[SUPERBLOCK_AT:].startswith(MARK)


def brought_up(contents, disk, lacks, free):
    """The bytes, and the line that says what was done. Raises Unkept."""
    recorded = recorded_by(bytearray(disk))
    if not is_named(contents):
        if not free(contents):
            raise Unkept("NotAHistory")
        return begun_from(disk), "begun"
    kept, length = read_history(contents)
    more = lacks(kept, recorded)
    return contents[:length - 1] + b"".join(batches_of(more)) + b"\0", f"appended {len(more)}"


def history(path, option=None, disk=None, lacks=lacking, free=is_free, span=lambda kept: (kept.first, kept.last), is_kept=True):
    """The lines. `lacks` says what a history lacks of a disk, `free` where one is begun, `span` how far it goes; one that `is_kept` has the bytes that it had."""
    file, lines = Path(path), []
    if option:
        before = file.read_bytes() if file.exists() else b""
        data, line = brought_up(before, Path(disk).read_bytes(), lacks, free)
        file.write_bytes(data if is_kept else begun_from(Path(disk).read_bytes()))
        lines = [line]
    kept, length = read_history(file.read_bytes())
    return [*lines, "events {} to {}".format(*span(kept)), f"bytes {length}"]


def bytes_of_part(part):
    """With its state in area 0, and its events in the long journal."""
    return bytes_without_events(part) + b"".join(batches_of(part.events)) + b"\0"


def part_of_history(path, *options, cut=part_of, free=is_free, form=bytes_of_part):
    """The lines. `cut` says what a part has, `free` in which files it is begun, and `form` its bytes."""
    words = dict(zip(options[::2], options[1::2]))
    first, last = (int(words[name]) if name in words else None for name in ("--from", "--to"))
    if first is None or is_turned(first, last):
        raise OutOfRange
    kept, file = read_history(Path(path).read_bytes())[0], Path(words["--part"])
    if not free(file.read_bytes() if file.exists() else b""):
        raise Unkept("NotAHistory")
    file.write_bytes(form(cut(kept, first, last)))
    return ["begun", *history(file)]


def listing_of_history(path, *options):
    at = int(options[options.index("--at") + 1]) if "--at" in options else None
    return listing_of_kept(read_history(Path(path).read_bytes())[0], at, "--code" in options)


def with_another_end(kept, first, last=None):
    return part_of(kept, first, kept.last if last is None else min(last + 1, kept.last))


def without_its_first(kept, first, last=None):
    part = part_of(kept, first, last)
    return replace(part, events=part.events[1:])


def in_the_first_state(kept, first, last=None):
    return replace(part_of(kept, first, last), machine=kept.machine)


def up_to_the_end(kept, first, last=None):
    """Whatever end it is asked for."""
    return part_of(kept, first) if last is None or last <= kept.last else part_of(kept, first, last)


def counted_from_0(kept, first, last=None):
    return replace(part_of(kept, first, last), first=0)


def in_both_areas(part):
    """With an area 1 that is open, too."""
    contents, geometry = bytearray(bytes_of_part(part)), read_front(bytes_of_part(part))
    contents[geometry.area_at(1)] = OPEN
    return bytes(contents)


def calls_of_history(path, *options, read=read_history):
    ends = dict(zip(options[::2], map(int, options[1::2])))
    stretch = ends.get("--from"), ends.get("--to")
    if is_turned(*stretch):
        raise OutOfRange
    return KeptHistory(read(Path(path).read_bytes())[0]).lines(*stretch)


def without_the_last(kept, recorded):
    return lacking(kept, recorded)[:-1]


def with_the_last_again(kept, recorded):
    more = lacking(kept, recorded)
    return more + more[-1:]


def uncompared(kept, recorded):
    """Whatever events both have."""
    if kept.last < recorded.first:
        raise Unkept("HistoryBehind")
    return recorded.events[kept.last - recorded.first:]


def with_a_gap(kept, recorded):
    """What the disk no longer has is left out."""
    return recorded.events if kept.fields == recorded.fields and kept.last < recorded.first else lacking(kept, recorded)


def as_on_a_disk(contents):
    """Without the long journal."""
    size = read_front(contents).size
    return read_history(contents[:size] + b"\0")


class FileKeeper:
    """Keeps a history in its file, batch by batch."""

    def __init__(self, path, lacks=lacking, free=is_free):
        self.path, self.lacks, self.free = Path(path), lacks, free
        self.data = self.path.read_bytes() if self.path.exists() else b""

    def put(self, data):
        self.data = data
        self.path.write_bytes(data)

    def begin(self, disk):
        disk.sync()
        try:
            self.put(brought_up(self.data, disk.read(0, len(disk)), self.lacks, self.free)[0])
        except Unkept as fault:
            raise Undriven(str(fault), self.path) from fault

    def append(self, events):
        end = read_history(self.data)[1] - 1
        self.put(self.data[:end] + batch(b"".join(event.encoding() for event in events), b"") + bytes([CLOSED]))


class Unkeeping(FileKeeper):
    """Begins a history and goes on with none."""

    def append(self, events):
        pass


class Skipping(FileKeeper):
    """Leaves the first batch of each drive out."""

    def begin(self, disk):
        super().begin(disk)
        self.is_first = True

    def append(self, events):
        if not self.is_first:
            super().append(events)
        self.is_first = False


class Doubling(FileKeeper):
    """Has more batches than the disk: each is there twice."""

    def append(self, events):
        super().append(events)
        super().append(events)


class Anew(FileKeeper):
    """Begins it from the disk, where it should be brought up to that."""

    def begin(self, disk):
        super().begin(disk)
        self.put(begun_from(disk.read(0, len(disk))))


class Unread(FileKeeper):
    """Takes no look at what a history that is there lacks."""

    def begin(self, disk):
        if not is_named(self.data):
            super().begin(disk)


class Writing(FileKeeper):
    """Refuses a file, and has made it longer before."""

    def begin(self, disk):
        try:
            super().begin(disk)
        except Undriven:
            self.put(self.data + bytes(1))
            raise


WRONG_KEEPERS = {"unkeeping": Unkeeping, "skipping": Skipping, "doubling": Doubling, "anew": Anew, "unread": Unread, "writing": Writing,
                 "uncomparing": lambda path: FileKeeper(path, lacks=uncompared), "begins anywhere": lambda path: FileKeeper(path, free=lambda contents: True)}
WRONG_HISTORIES = {
    "without the last": {"lacks": without_the_last}, "the last again": {"lacks": with_the_last_again}, "uncompared": {"lacks": uncompared}, "with a gap": {"lacks": with_a_gap},
    "anywhere": {"free": lambda contents: True}, "in zeros alone": {"free": lambda contents: not any(contents)}, "from 0 on": {"span": lambda kept: (0, kept.last)},
    "begun anew": {"is_kept": False},
}
WRONG_PARTS = {"another end": {"cut": with_another_end}, "first left out": {"cut": without_its_first}, "first state": {"cut": in_the_first_state},
               "to the end": {"cut": up_to_the_end}, "counted from 0": {"cut": counted_from_0}, "two areas": {"form": in_both_areas},
               "part anywhere": {"free": lambda contents: True}}
WRONG_CALLS_OF_HISTORIES = {"short": {"read": as_on_a_disk}}
