"""What ckrt does on a file system while its disk is logged, and what it does there after a cut."""
import ctypes
import os
import random
import signal
import subprocess
import time
import zlib
from dataclasses import dataclass
from pathlib import Path

from logged_disk import end_with_parent
from promises import TABLE, Finding, output_of
from shared.comparing import first_difference
from shared.disks import shape_words
from shared.guests import count_down, draw
from shared.instructions import SLEEP_UNTIL, Program
from shared.lives import ENOUGH

COUNT = 3_000  # bytes that a guest puts
FRONT_TABLE = 0x4000  # where its table lies behind its image
JOURNALS = [4_096, 8_192, 65_536]
LIVES = 3  # of each disk in a recording
EXITED = 7  # the status of a drive whose guest has ended by another status than 0
OTHERS, LONGEST_REST = 2, 0.004  # other programs on the file system, and the seconds for which one rests
CALLS = 0, 7, 40, 150, 600  # behind so many writes and syncs a life is killed, if it isn't 0
RESTS = "0", "0", "500"  # microseconds behind each write of a life
PATIENCE = 600  # seconds for a command, on a machine however busy
BEGUN = "begun"  # what the names of disks begin with whose guests end behind some events
PART = 1 << 19  # bytes of a file in one note: the logged disk takes twice as many in one request


def guest(seed, count, rounds=0, table=FRONT_TABLE):
    """The image of a guest that puts what `output_of` says; it has its table in four pages, from the address `table` on.

    Before each byte it goes so many rounds of two steps, and then sleeps for a moment, if it goes any: so it is committed often.
    """
    program = Program()
    for register, value in ((5, seed), (8, count), (9, TABLE), (18, table)):
        program.constant(register, value)
    program.label("round")
    if rounds:
        program.constant(7, rounds)
        program.label("rest")
        count_down(program, 7, "rest")
        program.addi(19, 19, 2)
        program.addi(10, 19, 0)
        program.addi(11, 0, 0)
        program.call(SLEEP_UNTIL)
    draw(program)
    program.both(7, 5, 9)
    program.add(7, 7, 18)
    program.load_word(6, 7)
    program.add(6, 6, 5)
    program.store_word(6, 7)
    program.put(6)
    count_down(program, 8, "round")
    program.exit()
    return program.image()


def seed_of(name):
    return zlib.crc32(name.encode()) | 1


@dataclass
class Place:
    """Where ckrt works: the folder on the file system, a folder beside it for images, and the program."""

    folder: Path
    images: Path
    ckrt: Path
    pages: int = 16
    table: int = FRONT_TABLE  # where guests have theirs
    turns: tuple = 30, 100, 400  # of drives that are cut
    events: tuple = 10, 40, 100, 300, 10_000
    calls: tuple = CALLS
    turns_behind: tuple = 1_000, 5_000, 65_535  # of drives behind a cut
    rounds_behind: tuple = 3, 16  # of these, from a commit to the next one
    exit: int = 0  # by which the guest ends

    def pages_of(self, _name):
        """How many pages a disk has."""
        return self.pages

    def is_end(self, status):
        """Whether a drive has this status whose guest has ended."""
        return status == (EXITED if self.exit else 0)

    def image(self, name):
        path = self.images / f"{name}.bin"
        if not path.exists():
            path.write_bytes(guest(seed_of(name), COUNT, table=self.table))
        return path

    def words(self, job, name, *more):
        """The words of a job of a disk, which is named without its ending."""
        return [self.ckrt, job, self.folder / f"{name}.disk", *more]

    def format_words(self, name):
        return self.words("format", name, self.image(name), *shape_words(pages=self.pages_of(name), journal=JOURNALS[seed_of(name) % len(JOURNALS)]))

    def drive_words(self, name, *more):
        return self.words("drive", name, "--output", self.folder / f"{name}.out", *more)

    def rhythm(self, _name, turn, rounds):
        """The words by which a drive goes for which such a turn and so many rounds were drawn."""
        return "--turn", str(turn), "--other-schedule", "--rounds-per-commit", str(rounds)

    def files(self, name):
        """The names of the files that a drive writes."""
        return [f"{name}.disk", f"{name}.out"]


class Logged:
    """Lives of ckrt whose calls and prints are logged."""

    def __init__(self, place, disk, calls, lacks, chance):
        self.place, self.chance = place, chance
        self.notes, self.prints = (os.open(disk.path(name), os.O_WRONLY) for name in ("notes", "prints"))
        self.environment = {**os.environ, "LD_PRELOAD": str(calls), "POWER_NOTES": str(disk.path("notes")), "POWER_LACKS": lacks}

    def close(self):
        os.close(self.notes)
        os.close(self.prints)

    def note(self, text, data=b""):
        os.write(self.notes, f"{text}\n".encode() + data)

    def live(self, name, words, lines=b"", calls=0):
        """One life: to its end or, behind so many calls, its kill. Says with what status it ended by itself."""
        self.note(f"life {name} {seed_of(name)} {COUNT} {words[1]}")
        environment = {**self.environment, "POWER_RESTS": self.chance.choice(RESTS), "POWER_NOTED": str(calls)}
        done = subprocess.run(words, input=lines, stdout=self.prints, stderr=self.prints, env=environment, timeout=PATIENCE, check=False)
        if done.returncode < 0:
            for file in self.place.files(name):
                self.note_found(file)
        return done.returncode

    def note_found(self, file):
        """Notes what a kill has left of a file, in parts that the kernel hands on whole."""
        if (self.place.folder / file).exists():
            data = (self.place.folder / file).read_bytes()
            for at in range(0, len(data), PART):
                part = data[at:at + PART]
                self.note(f"part {file} {at} {len(part)}", part)
            self.note(f"found {file} {len(data)}")

    def format(self, name):
        self.live(name, self.place.format_words(name))

    def drive(self, name):
        """A drive with a rhythm drawn by lot, which ends by itself or is killed."""
        turn, rounds, events = (self.chance.choice(of) for of in (self.place.turns, [1, 2, 8], self.place.events))
        words = self.place.drive_words(name, *self.place.rhythm(name, turn, rounds), "--events", str(events))
        status = self.live(name, words, calls=self.chance.choice(self.place.calls))
        if self.place.is_end(status) or status == ENOUGH and (self.place.folder / f"{name}.out").exists():
            self.note(f"kept {name} {(self.place.folder / f'{name}.out').stat().st_size}")

    def feed(self, name):
        """Lines drawn by lot: events, commits, and now and then a checkpoint."""
        kinds = self.chance.choices(["auto", "tick", "commit", "checkpoint"], [12, 2, 4, 1], k=self.chance.choice([40, 150, 400]))
        lines = "".join({"auto": f"auto 0 {self.chance.randint(1, 400)}\n", "tick": "tick 1\n"}.get(kind, f"{kind}\n") for kind in kinds)
        self.live(name, self.place.words("run", name), lines.encode(), self.chance.choice(CALLS))


def sync_all(folder):
    """Syncs the file system of a folder."""
    opened = os.open(folder, os.O_RDONLY)
    ctypes.CDLL(None).syncfs(opened)
    os.close(opened)


def disturb(folder, chance):
    """Another program on the same file system: it writes, syncs, renames and removes files of its own, until it is killed."""
    names = [f"other{chance.randrange(10)}.{number}" for number in range(6)]
    while True:
        path = folder / chance.choice(names)
        match chance.choice(["write", "write", "sync", "append", "rename", "remove", "sync all"]):
            case "write":
                path.write_bytes(chance.randbytes(chance.choice([100, 5_000, 60_000])))
            case "append" | "sync" as kind:
                with open(path, "ab") as file:
                    file.write(chance.randbytes(700))
                    file.flush()
                    if kind == "sync":
                        os.fsync(file.fileno())
            case "rename" if path.exists():
                path.rename(folder / chance.choice(names))
            case "remove":
                path.unlink(missing_ok=True)
            case "sync all":
                sync_all(folder)
        time.sleep(chance.random() * LONGEST_REST)


def begin_other(folder, seed):
    """Begins such a program, and says its number."""
    child = os.fork()
    if child == 0:
        end_with_parent()
        try:
            disturb(folder, random.Random(seed))
        finally:
            os._exit(1)
    return child


def work(logged, names, behind_drive=lambda name: None):
    """Disks are made where they aren't there, driven and fed in turns, beside other programs that write and sync."""
    others = [begin_other(logged.place.folder, logged.chance.random()) for _ in range(OTHERS)]
    try:
        for name in names:
            logged.format(name)
        for _ in range(LIVES):
            for name in logged.chance.sample(names, len(names)):
                if name.startswith("lines"):
                    logged.feed(name)
                elif not name.startswith("made"):
                    logged.drive(name)
                    behind_drive(name)
    finally:
        for other in others:
            os.kill(other, signal.SIGKILL)
            os.waitpid(other, 0)


def said(words, lines=b""):
    """What a command behind a cut says."""
    try:
        return subprocess.run(words, input=lines, capture_output=True, timeout=PATIENCE, check=False)
    except subprocess.TimeoutExpired:
        raise Finding(f"{' '.join(map(str, words))}: no end in {PATIENCE} seconds") from None


def shown(words, done):
    return f"{' '.join(map(str, words[1:3]))}: status {done.returncode}, {(done.stdout + done.stderr)[-200:]!r}"


def format_again(place, name):
    """Makes a disk behind a cut, or finds it made."""
    words = place.format_words(name)
    done = said(words)
    if done.returncode and b"it is no disk, and is unchanged" in done.stderr:
        # the cut left other bytes than its first block, by which the file would be known
        words[2].unlink()
        done = said(words)
    if done.returncode and not done.stderr.endswith(b"ckrt: AlreadyFormatted\n"):
        raise Finding(shown(words, done))


def drive_again(place, name, chance):
    """Drives a disk behind a cut, to the end of its guest."""
    words = place.drive_words(name, *place.rhythm(name, chance.choice(place.turns_behind), chance.choice(place.rounds_behind)))
    done = said(words)
    if not place.is_end(done.returncode) or not done.stderr.startswith(b"ended: exit %d\n" % place.exit):
        raise Finding(shown(words, done))


def go_on(place, name, run, chance):
    """Gives the same commands again after a cut, until the guest has ended, and compares its output."""
    wanted = output_of(seed_of(name), COUNT)
    if not run.formatted:
        format_again(place, name)
    output = place.folder / f"{name}.out"
    if name.startswith("lines"):
        # who read the lines has kept the bytes, and hands them to the drive, which goes on behind them
        output.write_bytes(wanted[:max(run.printed, feed_behind(place, name, wanted))])
    drive_again(place, name, chance)
    expect_output(output, name)


def expect_output(output, name):
    """The output of a disk's guest that has ended."""
    held, wanted = output.read_bytes(), output_of(seed_of(name), COUNT)
    if held != wanted:
        at = first_difference(held, wanted)
        raise Finding(f"{output.name} has {len(held)} bytes at its end, and another byte at {at}")


def feed_behind(place, name, wanted):
    """Feeds some lines to a disk that was fed before: each byte that it prints has to be the one of its offset. Says up to where."""
    words, end = place.words("run", name), 0
    done = said(words, b"auto 0 300\ncommit\nauto 0 100\ncheckpoint\n")
    if done.returncode:
        raise Finding(shown(words, done))
    for line in done.stdout.decode().splitlines():
        match line.split():
            case ["out", offset, digits]:
                data, begin = bytes.fromhex(digits), int(offset)
                end = begin + len(data)
                if wanted[begin:end] != data:
                    raise Finding(f"{name}: {line!r}, where {wanted[begin:end].hex()} is right")
    return end
