"""Makes saved tables, for the bench of tables: a program that hasn't begun, one with 64 threads, and the longest.

    make_tables.py FOLDER

It writes `fresh`, `crowd` and `longest`, by the format alone (docs/FILE_FORMAT.md). The crowd has 64 threads, 60 of which
wait for objects of each kind, and 40 objects: 100 waits and objects; and 4 keys, under two of which each thread has a value.
All are tables of version 2, of a program with 8 harts.
"""
import struct
import sys
from pathlib import Path

WAIT = struct.Struct("<BBBBIIQ")
PAGE = 4_096


def values(keys, value=1):
    """The end of a thread's record: in no round, with a value under each of these keys."""
    return struct.pack("<BBBB", 0, 0, len(keys), 0) + b"".join(struct.pack("<II", key, value) for key in keys)


def thread(number, handlers=0, flags=0, keys=()):
    """A thread at a pc of its own, with a number of its own in each register."""
    registers = [number * 1_000 + register for register in range(1, 32)]
    head = struct.pack("<BBBBII31I", number, flags | (number == 1), handlers, 0, 0, PAGE + 4 * number, *registers)
    return head + b"".join(struct.pack("<II", PAGE, handler) for handler in range(handlers)) + values(keys, number)


def wait(number, kind, first=0, second=0, deadline=None):
    return WAIT.pack(number, kind, 0, deadline is not None, first, second, deadline or 0)


def mutex(place, owner):
    return struct.pack("<IBBH", 0x10000 + 4 * place, 0, owner, 1)


def barrier(place):
    return struct.pack("<II", 0x20000 + 4 * place, 65)


def rwlock(place, readers):
    """A lock that these threads read under, else one that thread 64 writes under."""
    head = struct.pack("<IBB", 0x30000 + 4 * place, 0 if readers else 64, len(readers))
    return head + b"".join(struct.pack("<BH", reader, 1) for reader in readers)


def tables(threads, waits=(), mutexes=(), barriers=(), rwlocks=(), keys=0, unread=b"", held=b""):
    """A clock of 1, an open input, a program that runs, on harts that are idle."""
    return b"".join([
        struct.pack("<QBBBBI", 1, 0, 0, 0, 0, 0), bytes(8),
        bytes([len(threads)]), *threads,
        bytes([len(waits)]), *waits,
        struct.pack("<H", len(mutexes)), *mutexes,
        bytes([len(barriers)]), *barriers,
        bytes([len(rwlocks)]), *rwlocks,
        bytes([1, keys]), *[struct.pack("<II", key, PAGE) for key in range(keys)],
        struct.pack("<H", len(unread)), unread,
        struct.pack("<H", len(held)), held,
    ])


def fresh():
    head = struct.pack("<BBBBII31I", 1, 1, 0, 0, 0, PAGE, 0xFFFF_FFF0, 16 * PAGE, *29 * [0])
    return bytes(24) + b"\1" + head + bytes(4 + 5) + b"\1" + bytes(5)


def crowd():
    waits = []
    for number in range(1, 61):
        place = number % 4
        waits.append([
            wait(number, 2, 0x10000 + 4 * place), wait(number, 2, 0x10000 + 4 * place, deadline=100 + number),
            wait(number, 4, 0x40000 + 4 * place, 0x10000 + 4 * place), wait(number, 5, 0x20000 + 4 * place),
            wait(number, 7, 0x30000 + 4 * place), wait(number, 9, deadline=1_000 + number),
        ][number % 6])
    mutexes, barriers = [mutex(place, 64) for place in range(20)], [barrier(place) for place in range(10)]
    rwlocks = [rwlock(place, [62, 63] if place % 2 else []) for place in range(10)]
    threads = [thread(number, number % 3, keys=(1, 3)) for number in range(1, 65)]
    return tables(threads, waits, mutexes, barriers, rwlocks, 4, b"in", b"out")


def longest():
    waits = [wait(number, 2, 0x10000 + 4 * number) for number in range(1, 65)]
    mutexes = [mutex(place, place % 64 or 64) for place in range(256)]
    # thread t waits for the mutex at place t, which it owns: that of kind 0 lets it
    rwlocks = [rwlock(place, range(1, 65)) for place in range(64)]
    threads = [thread(number, 16, keys=range(32)) for number in range(1, 65)]
    barriers = [barrier(place) for place in range(64)]
    return tables(threads, waits, mutexes, barriers, rwlocks, 32, bytes(4_096), bytes(16_384))


def make(folder):
    """Writes the three into a folder, which is made where it is missing."""
    folder.mkdir(parents=True, exist_ok=True)
    for it in (fresh, crowd, longest):
        (folder / it.__name__).write_bytes(it())


if __name__ == "__main__":
    make(Path(sys.argv[1]))
