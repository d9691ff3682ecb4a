"""One disk and its output on both sides: the model's bytes and the program's files, through drives and lives of lines."""
import re
import subprocess
from contextlib import contextmanager, nullcontext
from dataclasses import dataclass

from cases.input_files import PLAIN, WAYS
from model.devices import MemoryDisk
from model.feeding import COUNTERS, RECORD_LENGTH, Supply, Undriven, taken_of
from model.layout import format_disk
from model.lines import serve_disk
from model.plans import Drive, require_fit
from model.schedules import require_schedule
from model.session import Session

TIME_LIMIT = 60


@dataclass(frozen=True)
class Feeding:
    """What a drive is told of the input: whether it has it, how many bytes lack at its end, how many were taken already, and in which
    way it is there."""
    is_fed: bool = True
    lacking: int = 0
    said: int | None = None
    way: str = "plain"

    def data(self, whole):
        return whole[:max(0, len(whole) - self.lacking)] if self.is_fed else None

    def at(self, folder, whole):
        """A context with the path that the words have, if any, and the standard input, if it isn't empty."""
        return WAYS[self.way](folder, self.data(whole)) if self.is_fed else nullcontext((None, None))

    def words(self, path):
        words = ["--input", path] if self.is_fed else []
        return words + ([] if self.said is None else ["--input-from", str(self.said)])

    @property
    def is_out_of_range(self):
        return self.said is not None and not (self.is_fed and self.said < COUNTERS)


UNFED = Feeding(is_fed=False)


@dataclass(frozen=True)
class End:
    """Of a drive: its status, and where that is 1 the name of the fault and the line before it."""
    status: int
    fault: str | None = None
    text: str = ""


def drive_of_model(disk, output, options, tally, feeding, whole, path, keeper=None):
    """The status, and the faults of which the program tells one; nothing is changed where there are any."""
    if feeding.is_out_of_range:
        return 1, [Undriven("Range")]
    if feeding.way not in PLAIN:
        return 1, [Undriven("File", path), *faults_of_start(disk, output, feeding, options=options)]
    data = feeding.data(whole)
    try:
        return Drive(MemoryDisk(disk), output, options, tally, data, feeding.said, keeper).run(), []
    except Undriven:
        return 1, faults_of_start(disk, output, feeding, data, options)


def faults_of_start(disk, output, feeding, data=None, options=None):
    """Of the output, of the input and of the schedule, each looked at alone. Nothing is known of the length of an input without data."""
    session = Session(MemoryDisk(bytearray(disk)))
    looks = {"output": lambda: require_fit(session, len(output)), "offset": lambda: taken_of(session.disk, session.recovered, feeding.said),
             "input": lambda: Supply(session, data, feeding.said)}
    found = []
    for which in ["output", *["offset" if data is None else "input"] * feeding.is_fed]:
        with catching(found):
            looks[which]()
    if options is not None:
        with catching(found):
            require_schedule(disk, options.schedule, options.is_other)
    return found


@contextmanager
def catching(found):
    try:
        yield
    except Undriven as fault:
        found.append(fault)


def drive_of_program(ckrt, disk, output, options, words=(), stdin=None, folder=None):
    words = ["drive", disk, "--output", output, *options.words(), *words]
    how = {"stdin": subprocess.DEVNULL if stdin is None else stdin, "cwd": folder, "timeout": TIME_LIMIT}
    done = subprocess.run([ckrt, *words], capture_output=True, **how)
    *before, text, fault = ["", "", *done.stderr.decode(errors="replace").splitlines()]
    return End(done.returncode, fault.removeprefix("ckrt: "), text) if done.returncode == 1 else End(done.returncode)


def tells(text, told):
    """Whether a text has a path, a word, or a number that no digit is beside."""
    return re.search(rf"(?<!\d){re.escape(told)}(?!\d)", text) is not None


def difference_of_ends(expected, shown):
    """None, or in a few words where the two differ."""
    status, faults = expected
    names = [str(fault) for fault in faults]
    if shown.status != status or shown.fault not in (names or [None]):
        return f"{status, names} of the model, {shown} of the program"
    untold = [told for fault in faults if str(fault) == shown.fault for told in fault.told if not tells(shown.text, told)]
    return f"{untold} should be in {shown.text!r}" if untold else None


def contents(path):
    return path.read_bytes() if path.exists() else b""


def first_other(shown, expected):
    """Where two disks differ first: of one that is longer at the end of the other."""
    pairs = enumerate(zip(shown, expected))
    return next((at for at, (left, right) in pairs if left != right), min(len(shown), len(expected)))


def keep(output, replies):
    """What lines put, each at its offset."""
    for _, offset, digits in (reply.split() for reply in replies if reply.startswith("out ")):
        put = bytes.fromhex(digits)
        output[int(offset):int(offset) + len(put)] = put


def cut(output, length):
    """As `truncate -s` does."""
    output[:] = output[:length].ljust(length, b"\0")


class Driven:
    """The case's disk, or one that is begun, with the bytes of its output; none where the first drive makes it.

    Each method does something on both sides, and answers None or in a few words where they differ. `more` are further words of a drive, and
    `keeper` keeps its history, where it has one.
    """

    FAULTS_BEHIND_ROOM = "OutputDiffers",

    def __init__(self, ckrt, case, folder, name, tally, count_life, begun=None):
        self.ckrt, self.case, self.tally, self.count_life = ckrt, case, tally, count_life
        self.folder, self.name = folder.resolve(), name
        self.path, self.out = (self.folder / f"{name}.{end}" for end in ("disk", "out"))
        self.disk, self.output = begun or (case.disk(), bytearray())
        self.making, self.more, self.keeper = [], [], None
        self.path.unlink(missing_ok=True)
        if self.disk is not None:
            self.path.write_bytes(self.disk)
        self.put_output()

    def made_by(self, image):
        """The disk is missing, and each drive names the image that it is made with."""
        self.path.unlink(missing_ok=True)
        self.disk, geometry = None, self.case.geometry
        (self.folder / "image").write_bytes(image)
        sizes = zip(("--pages", "--harts", "--journal"), (geometry.pages, geometry.harts, geometry.journal))
        self.making = ["--image", self.folder / "image", *[str(word) for size in sizes for word in size]]

    def put_output(self):
        self.out.unlink(missing_ok=True)
        if self.output:
            self.out.write_bytes(self.output)

    def drive(self, options, feeding):
        with feeding.at(self.folder, self.case.data) as (path, stdin):
            expected = self.drive_of_model(options, feeding, path)
            for outcome in [str(fault) for fault in expected[1]] or [f"status {expected[0]}"]:
                self.tally["drive", outcome] += 1
            self.count_life(1)
            words = [*self.making, *self.more, *feeding.words(path)]
            shown = drive_of_program(self.ckrt, self.path, self.out, options, words, stdin, self.folder)
        if shown.fault in self.FAULTS_BEHIND_ROOM:
            self.allow_room()
        return difference_of_ends(expected, shown) or self.difference_of_files()

    def allow_room(self):
        """Where the output doesn't fit, the disk may have been given room for the record of its input already."""
        room = self.case.geometry.size + RECORD_LENGTH
        if self.path.stat().st_size == room:
            self.disk = self.disk.ljust(room, b"\0")

    def drive_of_model(self, options, feeding, path):
        """A missing disk is made, with an input with room for its record, unless the words are out of range."""
        if self.disk is None and not feeding.is_out_of_range:
            self.disk = bytearray(format_disk(self.case.geometry, self.case.image)) + bytes(RECORD_LENGTH * feeding.is_fed)
        return drive_of_model(self.disk, self.output, options, self.tally, feeding, self.case.data, path, self.keeper)

    def serve(self, data, is_kept):
        """A life of lines. What it puts is kept in the output by its offset, or isn't."""
        replies = serve_disk(self.disk, data, self.tally)
        self.count_life(len(replies))
        done = subprocess.run([self.ckrt, "run", self.path], input=data, capture_output=True, timeout=TIME_LIMIT)
        if (done.returncode, done.stdout.decode().splitlines()) != (0, replies):
            return f"a life of lines: {replies[-3:]} of the model, {done.stdout[-200:]} of the program"
        if is_kept:
            keep(self.output, replies)
            self.put_output()
        return self.difference_of_disks()

    def cut(self, length):
        cut(self.output, length)
        self.put_output()

    def difference_of_files(self):
        if contents(self.out) != self.output:
            return "the output's bytes"
        return self.difference_of_disks()

    def difference_of_disks(self):
        shown = self.path.read_bytes() if self.path.exists() else None
        if shown == self.disk:
            return None
        if shown is None or self.disk is None:
            return "a disk is there on one side alone"
        (self.folder / f"{self.name}.model").write_bytes(self.disk)
        return f"the disk's bytes, first at {first_other(shown, self.disk)}"
