"""Cases of `ckrt history`: a disk that is driven and run by lines in pieces, and a file beside it that is brought up behind most of them, at times
from a copy of the disk that is older or went another way. Then `ckrt calls --history`, parts of the history at drawn places, with their listings, and
changes of the file's bytes."""
import subprocess
from dataclasses import dataclass, field, replace
from random import Random

from cases.damage import batch
from cases.driven import UNFED, Driven, Feeding, contents
from cases.drives import reading_case, unfed_case
from cases.glances import Glance
from cases.histories import is_turned, with_saves
from cases.mixed import DriveStep, Lines, MixedCase, Mixing
from cases.readers import READERS
from cases.streams import joined
from model.beside import (FIELDS, FRONT, LEAST, MARK, Joined, KeptHistory, Unkept, brought_up, has_form_of_part, is_free, listing_of_kept, part_of, read_front,
                          read_history, recorded_by)
from model.call_lines import kind_of_line
from model.events import Eof, Input, Place, Run, RunLong, Tick
from model.layout import CLOSED, OPEN, PAGES_AT, Geometry, format_disk
from model.lines import serve_disk
from model.listing import OutOfRange
from model.recovery import Unrecovered
from model.switches import SWITCHES

TIME_LIMIT = 60
CHANGES = 6
PARTS = 2  # that are made of one, and lead to others
FREE = [bytes(71), bytes(LEAST), bytes(8) + MARK + bytes(52), b"\0" * 8 + MARK + b"some other sizes" * 4, b"\x01" * 8 + MARK + b"\xa5" * 5_000, bytes(8) + MARK + bytes(400_000)]
NOT_FREE = [bytes(LEAST + 1), b"some words\n", b"\xa5" + bytes(LEAST - 1), bytes(8) + MARK[:-4] + b"\2\0\0\0" + bytes(60), bytes(8) + MARK[:-5], bytes(8) + MARK + bytes(51), bytes(12) + b"\1"]
APART = [b"tick 9\ncommit\n", b"in 5a\ncommit\ncheckpoint\n", b"auto 0 7\ntick 1\ncommit\ncheckpoint\ntick 2\ncheckpoint\ncheckpoint\n"]
OWN, NONE, OLDER, APART_FROM, OTHER = "own", "none", "older", "apart", "other"


@dataclass(frozen=True)
class Ask:
    """From which disk a history is brought up behind a step: its own, as it was behind so many steps, or so and then with lines of its own,
    or one of another program. One that is behind is begun anew, or is left."""
    which: str
    back: int = 0
    lines: bytes = b""
    is_anew: bool = True
    stretches: int = 0  # that are looked at


@dataclass
class BesideCase(MixedCase):
    """`before` is what lies there first; None where nothing does. `seed` is that of stretches, and of what is changed in the end."""
    asks: list = field(default_factory=list)
    before: bytes | None = None
    seed: int = 0


class Pieces(Mixing):
    """Drives, and lives of lines: those of the case's guest, with checkpoints by hand, or some that go on with the input."""

    def __init__(self, chance, fed, lines):
        super().__init__(chance, fed)
        self.left = lines

    def lines(self):
        if self.chance.random() < 0.3:
            return [*super().lines()]
        count = self.chance.choice([3, 10, 40])
        taken, self.left = self.left[:count], self.left[count:]
        return [line for line in with_saves(self.chance, taken) if not line.startswith(b"quit")]

    def step(self):
        if self.chance.random() < 0.5:
            self.serve()
        else:
            self.drive(self.chance.choice(self.fed.feedings), self.chance.choice(self.fed.drives))


def drawn_ask(chance, number):
    which = chance.choices([OWN, NONE, OLDER, APART_FROM, OTHER], [60, 18, 9, 9, 4])[0]
    back = chance.choice([1, 1, 2, number]) if which in (OLDER, APART_FROM) else 0
    return Ask(which, back, chance.choice(APART) if which == APART_FROM else b"", chance.random() < 0.7, chance.choice([0, 0, 1, 3]))


def fed_in_pieces(chance, case, events):
    """Half of them with an input. Journals are short, so that there are checkpoints in drives too, of so many events each."""
    fed = unfed_case(chance, case)
    if chance.random() < 0.5:
        fed = reading_case(chance, fed, chance.choice([None, *READERS]))
        fed.data = fed.data[:chance.choice([100, 700])]
    fed.geometry = replace(fed.geometry, journal=chance.choice([4096, 4096, 8192]))
    fed.drives = [replace(options, turn=min(options.turn, 300), events=chance.choice(events), is_other=SWITCHES.schedules) for options in fed.drives]
    fed.feedings = [Feeding() if fed.data else UNFED]
    return fed


def beside_case(chance, case):
    fed = fed_in_pieces(chance, case, [0, 1, 7, 40, 90])
    pieces = Pieces(chance, fed, case.lives[0].splitlines())
    for _ in range(chance.choice([2, 4, 6, 9])):
        pieces.step()
    asks = [drawn_ask(chance, number) for number in range(len(pieces.steps))]
    before = chance.choice([None, None, None, b"", chance.choice(FREE), chance.choice(NOT_FREE)])
    return BesideCase(fed.geometry, fed.image, fed.version, fed.drives, fed.behind, fed.data, fed.feedings, pieces.steps,
                      [replace(asks[0], which=OWN), *asks[1:]], before, chance.randrange(1 << 32))


def told_by(ckrt, *words):
    """Status, what is printed, and the last line of what is reported."""
    done = subprocess.run([ckrt, *words], capture_output=True, stdin=subprocess.DEVNULL, timeout=TIME_LIMIT)
    return Glance(done.returncode, done.stdout.decode(), "".join(done.stderr.decode(errors="replace").splitlines()[-1:]))


def refused(fault):
    return Glance(1, "", f"ckrt: {fault}")


def printed(*lines):
    return Glance(0, "".join(f"{line}\n" for line in lines))


def lines_of_span(kept, length):
    return [f"events {kept.first} to {kept.last}", f"bytes {length}"]


class Beside:
    """A history on both sides: what the model has it record, and the program's file, whose bytes the model reads.

    Each method that asks something answers None or in a few words where they differ.
    """

    def __init__(self, ckrt, case, folder, tally):
        self.ckrt, self.tally, self.chance, self.chance_of_parts = ckrt, tally, Random(case.seed), Random(case.seed + 1)
        self.case, self.path, self.other = case, folder.resolve() / "history", folder.resolve() / "other.disk"
        self.disks, self.kept, self.length = [], None, 0
        self.remove()
        if case.before is not None:
            self.path.write_bytes(case.before)

    def remove(self):
        self.path.unlink(missing_ok=True)
        self.kept, self.length = None, 0

    def ask(self, ask, driven):
        """Behind a step."""
        self.disks.append(bytes(driven.disk))
        if ask.which == NONE:
            return None
        disk = self.disk_for(ask)
        self.other.write_bytes(disk)
        difference = self.bring_up(disk)
        if difference is None and self.outcome == "HistoryBehind" and ask.is_anew:
            self.remove()
            difference = self.bring_up(disk)
        if difference is None and self.outcome == "NotAHistory":
            self.remove()
            difference = self.bring_up(disk)
        return difference or self.difference_of_looks(ask.stretches)

    def disk_for(self, ask):
        if ask.which == OTHER:
            geometry = self.chance.choice([self.case.geometry, replace(self.case.geometry, harts=self.case.geometry.harts % 8 + 1),
                                           replace(self.case.geometry, journal=12_288), replace(self.case.geometry, pages=self.case.geometry.pages + 1)])
            image = self.case.image + bytes(geometry == self.case.geometry)
            return bytes(format_disk(geometry, image[:geometry.image_limit], self.case.version))
        disk = bytearray(self.disks[max(0, len(self.disks) - 1 - ask.back)])
        if ask.lines:
            serve_disk(disk, ask.lines)
        return bytes(disk)

    def expected(self, disk):
        """The fault, or what the history has then, with the line that says what was done."""
        try:
            return None, *brought_up(self.kept, contents(self.path), recorded_by(bytearray(disk)))
        except Unkept as fault:
            return str(fault), self.kept, None

    def bring_up(self, disk):
        before, (fault, kept, head) = contents(self.path), self.expected(disk)
        self.outcome = fault or head.split()[0]
        self.tally["history", self.outcome] += 1
        shown = told_by(self.ckrt, "history", self.path, "--disk", self.other)
        if self.other.read_bytes() != disk:
            return "history changed its disk's bytes"
        if fault:
            return None if (shown, contents(self.path)) == (refused(fault), before) else f"history: model {fault}, program {shown}"
        if shown.status:
            return f"history: model {head}, {kept}, program {shown}"
        return self.difference_of_file(before, disk, kept, head, shown)

    def difference_of_file(self, before, disk, kept, head, shown):
        difference = self.difference_of_bytes(before, disk, kept)
        if difference is None and shown != printed(head, *lines_of_span(kept, self.length)):
            return f"history: model {head} and {lines_of_span(kept, self.length)}, program {shown}"
        return difference

    def difference_of_bytes(self, before, disk, kept):
        """The file is read by the model: it has what the history has, and what stood before the gate that ended it, or what the disk had from which it
        was begun. Only where batches end is left open. What is told of it is compared, too."""
        data = self.path.read_bytes()
        try:
            found, length = read_history(data)
        except Unrecovered as fault:
            return f"history: {fault} of the program's bytes"
        if not found.is_same(kept):
            return f"history: model {kept}, program's bytes {found}"
        size = read_front(data).size
        is_prefix = data[:self.length - 1] == before[:self.length - 1] if self.kept else data[FRONT:size] == disk[FRONT:size]
        if not is_prefix:
            return "history: bytes that were there are others"
        self.kept, self.length = kept, length
        told = told_by(self.ckrt, "history", self.path)
        return None if told == printed(*lines_of_span(kept, length)) else f"history without a disk: {told}"

    def difference_of_looks(self, count):
        """On stretches of the events."""
        if self.kept is None or not count:
            return None
        before = self.path.read_bytes()
        difference = self.difference_of_calls(self.kept, self.path, [(None, None), *(self.drawn_stretch() for _ in range(count - 1))])
        for _ in range(PARTS):
            difference = difference or self.difference_of_part(self.kept, self.path)
        return difference or (None if self.path.read_bytes() == before else "a look, or a part, changed the history's bytes")

    def drawn_stretch(self):
        return stretch_of(self.kept, self.chance)

    def difference_of_part(self, kept, path):
        """Of a history that has so much, or the name of what its bytes are refused by. A part is begun where nothing is, or something else."""
        chance, part = self.chance_of_parts, path.with_name(f"{path.name}.part")
        stretch = stretch_of(kept if isinstance(kept, Joined) else self.kept, chance)
        there = chance.choice([None, None, None, b"", chance.choice(FREE), chance.choice(NOT_FREE)])
        part.unlink(missing_ok=True)
        if there is not None:
            part.write_bytes(there)
        wanted, faults = expected_part(kept, there or b"", stretch)
        shown = told_by(self.ckrt, "history", path, "--part", part, *words_of(stretch))
        self.tally["part of a history", shown.fault[6:] or "begun"] += 1
        if not faults:
            difference = self.difference_of_made(wanted, part, shown)
        else:
            is_left = part.exists() and part.read_bytes() == there or not part.exists() and there is None or is_still_free(there, part)
            difference = None if shown in map(refused, faults) and is_left else f"model {faults}, program {shown}; left as it was: {is_left}"
        return difference and f"part of a history (from, to {stretch}): {difference}"

    def difference_of_made(self, wanted, part, shown):
        """Its bytes, read by the model; what is told of it; and what it leads to: another part, or the history of a disk."""
        data, chance = part.read_bytes(), self.chance_of_parts
        try:
            found, length = read_history(data)
        except Unrecovered as fault:
            return f"{fault} of the program's bytes, {shown}"
        if not found.is_same(wanted) or not has_form_of_part(data):
            return f"model {wanted}, program's bytes {found}, form {has_form_of_part(data)}"
        lines, told = lines_of_span(wanted, length), told_by(self.ckrt, "history", part)
        if (shown, told) != (printed("begun", *lines), printed(*lines)):
            return f"model {lines}, program {shown}, {told}"
        difference = self.difference_of_calls(wanted, part, [(None, None), stretch_of(wanted, chance)]) or self.difference_of_listings(wanted, part)
        if difference is None and part.read_bytes() != data:
            return "a look changed the part's bytes"
        leads_to = chance.choices([self.difference_of_part, self.difference_of_going_on, lambda *_: None], [2, 3, 5])[0]
        return difference or leads_to(wanted, part)

    def difference_of_listings(self, kept, path):
        """Where it begins, behind the last event, at a drawn place, and outside."""
        if KeptHistory(kept).refused is not None:
            return None  # which fault comes, and where, is seen by the calls
        chance = self.chance_of_parts
        for at in (None, kept.first, chance.randint(kept.first, kept.last), chance.choice([kept.last + 1, max(kept.first - 1, 0)])):
            is_with_code = chance.random() < 0.3
            try:
                expected = printed(*listing_of_kept(kept, at, is_with_code))
            except OutOfRange as fault:
                expected = refused(fault)
            shown = told_by(self.ckrt, "inspect", "--history", path, *([] if at is None else ["--at", str(at)]), *["--code"] * is_with_code)
            self.tally["listing of a part", expected.fault[6:] or "shown"] += 1
            if shown != expected:
                return f"listing at {at}: model {str(expected)[:300]}, program {str(shown)[:300]}"
        return None

    def difference_of_going_on(self, kept, part):
        """A part is brought up to the disk as any history is."""
        if not self.disks:
            return None
        before, disk = part.read_bytes(), self.disks[-1]
        self.other.write_bytes(disk)
        shown = told_by(self.ckrt, "history", part, "--disk", self.other)
        try:
            wanted, head = brought_up(kept, before, recorded_by(bytearray(disk)))
        except Unkept as fault:
            self.tally["part and its disk", str(fault)] += 1
            return None if (shown, part.read_bytes()) == (refused(fault), before) else f"brought up: model {fault}, program {shown}"
        self.tally["part and its disk", head.split()[0]] += 1
        found, length = read_history(part.read_bytes())
        is_alike = found.is_same(wanted) and shown == printed(head, *lines_of_span(wanted, length))
        return None if is_alike else f"brought up: model {head}, {wanted}, program {shown}, {found}"

    def difference_of_calls(self, kept, path, stretches):
        history = KeptHistory(kept)
        for stretch in stretches:
            expected, shown = calls_of_model(history, stretch), calls_of_program(self.ckrt, path, stretch)
            if history.refused is not None and not is_turned(*stretch):
                expected = with_what_is_open(expected, shown, history, stretch[0])
            self.tally["calls of a history", expected.fault[6:] or "shown"] += 1
            self.tally.update(("line of calls", kind_of_line(line)) for line in expected.text.splitlines())
            if shown != expected:
                return f"calls of a history (from, to {stretch}): model {str(expected)[:200]}, program {str(shown)[:200]}"
        return None

    def difference_of_changes(self):
        """Of copies of the file with some other bytes: what is told of them, and of their calls."""
        if self.kept is None:
            return None
        whole, changed = self.path.read_bytes(), self.path.with_name("changed")
        for _ in range(CHANGES):
            data = Changed(self.chance, whole, self.length).change()
            changed.write_bytes(data)
            difference = self.difference_of_changed(data, changed)
            if difference:
                changed.rename(changed.with_name("changed.kept"))
                return difference
        changed.unlink()
        return None

    def difference_of_changed(self, data, changed):
        try:
            kept, length = read_history(data)
            expected = printed(*lines_of_span(kept, length))
        except Unrecovered as fault:
            kept, expected = None, refused(fault)
        self.tally["changed history", expected.fault[6:] or "read"] += 1
        shown = told_by(self.ckrt, "history", changed)
        if shown != expected:
            return f"a changed history: model {expected}, program {shown}"
        difference = self.difference_of_part(expected.fault[6:] if kept is None else kept, changed) if self.chance_of_parts.random() < 0.5 else None
        if difference:
            return f"a changed history: {difference}"
        stretch = self.chance.choice([(None, None), (None, None), self.drawn_stretch()])
        if kept is not None:
            return self.difference_of_calls(kept, changed, [stretch])
        shown, expected = calls_of_program(self.ckrt, changed, stretch), refused("Range") if is_turned(*stretch) else expected
        if (shown, changed.read_bytes() == data) != (expected, True):
            return f"calls of a changed history: model {expected}, program {shown}"
        return None


def stretch_of(kept, chance):
    """Mostly one that the history has."""
    first, last = kept.first, kept.last
    ends = [chance.randint(first, last) for _ in range(2)]
    odd = [(max(first - 1, 0), None), (None, last + 1), (last, first), (last + 1, None), (2 ** 64 - 1, None)]
    return chance.choice([tuple(sorted(ends)), (ends[0], None), (None, ends[1]), chance.choice(odd)])


def expected_part(kept, there, stretch):
    """What a part has, or None and the faults of which one is told: where several apply their page leaves it open. `kept` is what the history has, or what
    its bytes are refused by, and `there` are the bytes of the part's file."""
    first, last = stretch
    if first is None or is_turned(first, last):
        return None, ["Range"]
    faults, wanted = [] if is_free(there) else ["NotAHistory"], None
    if not isinstance(kept, Joined):
        return None, [*faults, kept]
    try:
        wanted = part_of(kept, first, last)
    except Unrecovered as fault:
        faults.append(str(fault))
    except OutOfRange as fault:
        faults += [str(fault), *["Damaged"] * (KeptHistory(kept).refused is not None)]
    return wanted, faults


def is_still_free(there, part):
    """Of a file that was missing, or had few zeros: whether it is one of these, or has as many zeros as a free one gets first."""
    return is_free(there or b"") and len(there or b"") < LEAST and contents(part) in (b"", there, bytes(LEAST))


DAMAGED, OUTSIDE = refused("Damaged"), refused("Range")


def calls_of_model(history, stretch):
    try:
        return printed(*history.lines(*stretch))
    except (OutOfRange, Unrecovered) as fault:
        return refused(fault)


def words_of(stretch):
    ends = [(name, str(end)) for name, end in zip(("--from", "--to"), stretch) if end is not None]
    return [word for pair in ends for word in pair]


def calls_of_program(ckrt, path, stretch):
    return told_by(ckrt, "calls", "--history", path, *words_of(stretch))


def with_what_is_open(expected, shown, history, first):
    """Of a history with an event that isn't accepted, with those lines before it that may come and are shown. A stretch that it hasn't may be told by
    either fault, since one way to find that out is to make the events."""
    if expected == OUTSIDE:
        return shown if shown == DAMAGED else expected
    told = "".join(f"{line}\n" for line in history.lines_before_refused(first)[:shown.text.count("\n")])
    return replace(expected, text=told) if expected == DAMAGED and shown.text == told else expected


class Changed:
    """Of a history that takes so many bytes of its file: other bytes, fewer, or one more batch."""

    def __init__(self, chance, whole, length):
        self.chance, self.data, self.length = chance, bytearray(whole), length
        self.geometry = read_front(whole)

    def change(self):
        kinds = {self.change_byte: 6, self.change_front: 2, self.cut: 2, self.append: 3, self.leave_garbage: 1, self.append_and_change: 1}
        self.chance.choices(list(kinds), kinds.values())[0]()
        return bytes(self.data)

    def put(self, at, more):
        self.data[at:at + len(more)] = more

    def change_front(self):
        chance = self.chance
        at = chance.choice([0, 8, 15, 16, 19, 20, 21, 24, 25, 28, 29, 30, 31, *range(FIELDS.start + 12, FIELDS.stop, 17), 71, 72, 4095])
        self.put(at, bytes([chance.choice([0, 1, 2, 8, 9, 16, 17, 0x20, OPEN, 0xFF])]))

    def change_byte(self):
        """Of areas and journals, where a byte tells something."""
        chance, geometry = self.chance, self.geometry
        area, long_journal = chance.choice([0, 1]), geometry.size
        header, tables, journal = geometry.area_at(area), geometry.tables_at(area), geometry.journal_at(area)
        at = chance.choice([header, header + 8, header + 16, header + 24, header + 32, header + 33, header + 36, header + 40, tables, tables + chance.randrange(240),
                            header + PAGES_AT + 4096 + chance.randrange(4096), geometry.page_at(area, geometry.pages - 1), journal + chance.randrange(40),
                            journal, journal + 1, long_journal + chance.randrange(self.length - long_journal), long_journal, self.length - 1])
        byte = self.data[at]
        self.put(at, bytes([chance.choice([byte ^ 1, byte ^ 2, 0, 1, OPEN, CLOSED, chance.randrange(256)])]))

    def cut(self):
        size = self.geometry.size
        lengths = [0, 20, 31, 32, 72, 4096, size - 1, size, size + 1, size + 2, self.length - 1, self.length - 2, self.chance.randrange(size, len(self.data) + 1)]
        del self.data[self.chance.choice(lengths):]

    def append(self):
        """A batch of events, of which some aren't accepted, or the chain isn't whole."""
        chance = self.chance
        events = [Place(0, 1), Place(7, 64), Run(0, 9), Run(0, 300), RunLong(0, 20), Tick(1), Tick(4294967295), Input(b"abc"), Eof()]
        behind = chance.choice([b"\0", b"\0", b"\0", b"\0\xa5\xa5", b"\xa5", b"\xa5\0\0", b"", b"\x01"])
        drawn = b"".join(event.encoding() for event in chance.choices(events, k=chance.choice([1, 2, 5])))
        self.put(self.length - 1, batch(drawn, behind))

    def leave_garbage(self):
        """Behind the gate that ends it: nobody reads that."""
        self.put(self.length, self.chance.choice([b"\xa5", b"\xa5\1\0\4\0", bytes(5_000), self.chance.randbytes(300)]))

    def append_and_change(self):
        self.append()
        self.change_byte()


def difference_of_beside(ckrt, case, folder, tally, count_life):
    """None, or in a few words where the two differ."""
    driven, beside = Driven(ckrt, case, folder, "beside", tally, count_life), Beside(ckrt, case, folder, tally)
    for number, (step, ask) in enumerate(zip(case.steps, case.asks), 1):
        difference = step.on(driven) or beside.ask(ask, driven)
        if difference is not None:
            return f"step {number} ({step}, {ask}): {difference}"
    return beside.difference_of_changes()
