"""A disk that logs what is asked of it: a program over the kernel's FUSE that offers three files in a folder.

`disk` is read and written by a loop device. `notes` and `prints` only take bytes, which go into the same log: so each write of
the disk, each flush, each call of a program and each byte that it prints stand in one sequence of moments. A write and a flush
have two moments, when they came and when they were answered: some are answered later, out of turn, as a disk with a queue does.
"""
import ctypes
import errno
import os
import pickle
import random
import select
import signal
import stat
import struct
import subprocess
import time
import traceback
from dataclasses import dataclass
from pathlib import Path

BLOCK = 4_096
NO_BYTES = bytes(BLOCK)
LONGEST = 1 << 20  # bytes of a write
LATER = 0.3  # how many answers are held back
PATIENCE = 0.0003  # seconds without a request, after which one of them goes out
ROOT, DISK, NOTES, PRINTS = 1, 2, 3, 4
NAMES = {b"disk": DISK, b"notes": NOTES, b"prints": PRINTS}

# The kernel's numbers: fuse_opcode, and the flags of fuse_init_out and fuse_open_out in <linux/fuse.h>.
LOOKUP, FORGET, GETATTR, OPEN, READ, WRITE, STATFS, RELEASE = 1, 2, 3, 14, 15, 16, 17, 18
FSYNC, FLUSH, INIT, INTERRUPT, DESTROY, BATCH_FORGET, FALLOCATE = 20, 25, 26, 36, 38, 42, 43
UNANSWERED = FORGET, BATCH_FORGET, INTERRUPT
HEADER = struct.Struct("<IIQQIIII")
ASYNC_READ, BIG_WRITES, ASYNC_DIRECT, MAX_PAGES = 1, 1 << 5, 1 << 15, 1 << 22
DIRECT = 1
END_WITH_PARENT = 1  # PR_SET_PDEATHSIG in <linux/prctl.h>
HOUR = 3_600  # seconds for which the kernel may keep what it was told of a file


@dataclass(slots=True)
class Write:
    """A write of the disk. One that was never answered has no second moment."""

    offset: int
    data: bytes
    came: int
    answered: int = 0


@dataclass(slots=True)
class Flush:
    came: int
    answered: int = 0


@dataclass(slots=True)
class Note:
    """Bytes that a program noted or printed."""

    file: int
    data: bytes
    came: int


class Blocks(dict):
    """The bytes of a disk by blocks; those that aren't there are zeros."""

    def write(self, offset, data):
        at = 0
        while at < len(data):
            block, within = divmod(offset + at, BLOCK)
            part = data[at:at + BLOCK - within]
            if len(part) < BLOCK:
                old = self.get(block, NO_BYTES)
                part = old[:within] + part + old[within + len(part):]
            if part == NO_BYTES:
                self.pop(block, None)
            else:
                self[block] = part
            at += BLOCK - within

    def read(self, offset, count):
        first, last = offset // BLOCK, -(-(offset + count) // BLOCK)
        data = b"".join(self.get(block, NO_BYTES) for block in range(first, last))
        return data[offset - first * BLOCK:][:count]

    def save(self, path, size):
        """Writes a file of these bytes, with holes where nothing was written."""
        with open(path, "wb") as file:
            file.truncate(size)
            for run in runs_of(sorted(self)):
                os.pwritev(file.fileno(), [self[block] for block in run], run[0] * BLOCK)


def runs_of(numbers):
    """Rising numbers as runs of neighbours, at most 1,000 in each."""
    run = []
    for number in numbers:
        if run and (number != run[-1] + 1 or len(run) == 1_000):
            yield run
            run = []
        run.append(number)
    if run:
        yield run


def blocks_of(path):
    """The blocks of a file that aren't zeros."""
    blocks = Blocks()
    with open(path, "rb") as file:
        at, end = 0, os.fstat(file.fileno()).st_size
        while at < end:
            try:
                at = os.lseek(file.fileno(), at, os.SEEK_DATA) // BLOCK * BLOCK
            except OSError:
                break  # only a hole is left
            data = os.pread(file.fileno(), BLOCK, at)
            if data != NO_BYTES:
                blocks[at // BLOCK] = data
            at += BLOCK
    return blocks


class Server:
    """Answers the kernel's requests until the folder is no longer mounted."""

    def __init__(self, device, blocks, size, chance):
        self.device, self.blocks, self.size, self.chance = device, blocks, size, chance
        self.log, self.held, self.moment = [], [], 0

    def next_moment(self):
        self.moment += 1
        return self.moment

    def attributes(self, node):
        is_root = node == ROOT
        mode = stat.S_IFDIR | 0o700 if is_root else stat.S_IFREG | 0o600
        size = self.size if node == DISK else 0
        return struct.pack("<6Q10I", node, size, size // 512, 0, 0, 0, 0, 0, 0, mode, 1, 0, 0, 0, BLOCK, 0)

    def reply(self, unique, data=b"", error=0):
        try:
            os.write(self.device, struct.pack("<IiQ", 16 + len(data), -error, unique) + data)
        except FileNotFoundError:
            pass  # who asked was killed meanwhile

    def answer(self, unique, entry, data):
        """Answers a write or a flush, now or later."""
        if self.chance.random() < LATER:
            self.held.append((unique, entry, data))
        else:
            self.answer_now(unique, entry, data)

    def answer_now(self, unique, entry, data):
        entry.answered = self.next_moment()
        self.reply(unique, data)

    def take_write(self, node, unique, body):
        _, offset, count = struct.unpack_from("<QQI", body)
        data, done = body[40:40 + count], struct.pack("<II", count, 0)
        if node == DISK:
            entry = Write(offset, data, self.next_moment())
            self.log.append(entry)
            self.blocks.write(offset, data)
            self.answer(unique, entry, done)
        else:
            self.log.append(Note(node, data, self.next_moment()))
            self.reply(unique, done)

    def take_flush(self, node, unique, _body):
        if node != DISK:
            self.reply(unique)
            return
        entry = Flush(self.next_moment())
        self.log.append(entry)
        self.answer(unique, entry, b"")

    def take_read(self, node, unique, body):
        _, offset, count = struct.unpack_from("<QQI", body)
        self.reply(unique, self.blocks.read(offset, min(count, self.size - offset)) if node == DISK else b"")

    def look_up(self, _node, unique, body):
        found = NAMES.get(body.rstrip(b"\0"))
        if found:
            self.reply(unique, struct.pack("<QQQQII", found, 0, HOUR, HOUR, 0, 0) + self.attributes(found))
        else:
            self.reply(unique, error=errno.ENOENT)

    def tell_attributes(self, node, unique, _body):
        self.reply(unique, struct.pack("<QII", HOUR, 0, 0) + self.attributes(node))

    def open(self, _node, unique, _body):
        self.reply(unique, struct.pack("<QII", 0, DIRECT, 0))

    def tell_statistics(self, _node, unique, _body):
        self.reply(unique, struct.pack("<5Q10I", 0, 0, 0, 0, 0, BLOCK, 255, BLOCK, *[0] * 7))

    def begin(self, _node, unique, body):
        flags = struct.unpack_from("<IIII", body)[3] & (ASYNC_READ | BIG_WRITES | ASYNC_DIRECT | MAX_PAGES)
        limits = 64, 48, LONGEST, 1, LONGEST // BLOCK
        self.reply(unique, struct.pack("<IIIIHHIIHHI7I", 7, 31, 0, flags, *limits, 0, 0, *[0] * 7))

    def agree(self, _node, unique, _body):
        self.reply(unique)

    TAKES = {LOOKUP: look_up, GETATTR: tell_attributes, OPEN: open, READ: take_read, WRITE: take_write, STATFS: tell_statistics,
             RELEASE: agree, FSYNC: take_flush, FLUSH: agree, INIT: begin, DESTROY: agree}

    def take(self, request):
        _, operation, unique, node, *_ = HEADER.unpack_from(request)
        if operation in self.TAKES:
            self.TAKES[operation](self, node, unique, request[HEADER.size:])
        elif operation not in UNANSWERED:
            self.reply(unique, error=errno.EOPNOTSUPP if operation == FALLOCATE else errno.ENOSYS)

    def run(self):
        os.set_blocking(self.device, False)
        while True:
            if not select.select([self.device], [], [], PATIENCE if self.held else None)[0]:
                self.answer_now(*self.held.pop(self.chance.randrange(len(self.held))))
                continue
            try:
                self.take(os.read(self.device, LONGEST + BLOCK))
            except (BlockingIOError, FileNotFoundError):
                pass  # who asked was killed before it was heard
            except PermissionError:
                time.sleep(PATIENCE)  # the folder isn't mounted yet
            except OSError as error:
                if error.errno == errno.ENODEV:
                    return
                raise


def end_with_parent():
    """Has a child end where its parent does."""
    ctypes.CDLL(None).prctl(END_WITH_PARENT, signal.SIGKILL)


class LoggedDisk:
    """The disk as a folder, for a `with`; behind it `log` is there."""

    def __init__(self, folder, blocks, size, seed):
        self.folder, self.blocks, self.size, self.seed, self.log = Path(folder), blocks, size, seed, None

    def path(self, name):
        return self.folder / name

    def __enter__(self):
        self.folder.mkdir(exist_ok=True)
        device = os.open("/dev/fuse", os.O_RDWR)
        options = f"fd={device},rootmode=40000,user_id=0,group_id=0"
        words = ["mount", "-i", "-t", "fuse", "-o", options, "powercut", self.folder]
        self.written = self.folder.with_suffix(".log")
        self.child = os.fork()
        if self.child == 0:
            self.serve(device)
        os.set_inheritable(device, True)
        try:
            subprocess.run(words, check=True, pass_fds=[device])
        finally:
            os.close(device)
        return self

    def serve(self, device):
        """What the child does, to its end."""
        end_with_parent()
        status = 1
        try:
            server = Server(device, Blocks(self.blocks), self.size, random.Random(self.seed))
            server.run()
            with open(self.written, "wb") as file:
                pickle.dump(server.log, file)
            status = 0
        except BaseException:
            traceback.print_exc()
        finally:
            os._exit(status)

    def __exit__(self, *_):
        subprocess.run(["umount", self.folder], check=True)
        status = os.waitpid(self.child, 0)[1]
        if status:
            raise RuntimeError(f"the logged disk ended with status {status}")
        with open(self.written, "rb") as file:
            self.log = pickle.load(file)
        self.written.unlink()
