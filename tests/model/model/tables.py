"""Saved tables of versions 1 and 2: the bytes of a state with its held output, and back.

Numbers are little-endian, and nothing stands between the parts. Bytes are read leniently and then compared with the bytes
of what was read: so a list out of order, an unused field that isn't 0 or a second record of one address is no encoding.
Version 1 has no keys: it stands for a state without them.
"""
import struct

from model.objects import Mutex, MutexKind, ReadWriteLock
from model.switches import newest_version
from model.threads import HARTS, UNWIND, Handler, State, Status, Thread, Wait, WaitKind
from model.well_formed import is_well_formed

HEAD = struct.Struct("<QBBBBI")  # clock, input closed, status, fault's thread and cause, status word
THREAD = struct.Struct("<BBBBII31I")  # id, flags, number of handlers, 0, value, pc, x1 to x31
HANDLER = struct.Struct("<II")
ROUND = struct.Struct("<BBBB")  # round, next key, number of values, 0
KEYED = struct.Struct("<II")  # a key, and its value or destructor
WAIT = struct.Struct("<BBBBIIQ")  # thread, kind, result, deadline present, a, b, deadline
MUTEX = struct.Struct("<IBBH")  # address, kind, owner, count
BARRIER = struct.Struct("<II")  # address, count
LOCK = struct.Struct("<IBB")  # address, writer, number of readers
READER = struct.Struct("<BH")  # id, count
BYTE, HALF = struct.Struct("<B"), struct.Struct("<H")

STATUSES = [Status.RUNNING, Status.EXITED, Status.FAULTED]
FLAGS = ["is_initial", "is_detached", "is_disabled", "is_asynchronous", "is_request_pending", "is_unwinding", "has_ended"]
WAIT_KINDS = [None, WaitKind.JOIN, WaitKind.LOCK, WaitKind.RETAKE, WaitKind.CONDITION, WaitKind.BARRIER, WaitKind.READ,
              WaitKind.WRITE, WaitKind.INPUT, WaitKind.SLEEP]
WITHOUT_SUBJECT = (WaitKind.INPUT, WaitKind.SLEEP)
UNWIND_RESULT = 255


def counted(count, records):
    """The number of records, then each of them."""
    return count.pack(len(records)) + b"".join(records)


def thread_record(number, thread, version):
    """From version 2 on it ends with the values by key."""
    record = record_of_version_1(number, thread)
    if version == 1:
        return record
    if thread.has_ended:
        return record + ROUND.pack(0, 0, 0, 0)
    front = ROUND.pack(thread.round, thread.next_key, len(thread.values), 0)
    return record + front + b"".join(KEYED.pack(*row) for row in sorted(thread.values.items()))


def record_of_version_1(number, thread):
    """Of an ended thread nothing but id, flag and value is kept."""
    if thread.has_ended:
        return THREAD.pack(number, 1 << FLAGS.index("has_ended"), 0, 0, thread.value, 0, *31 * [0])
    flags = sum(1 << bit for bit, name in enumerate(FLAGS) if getattr(thread, name))
    value = thread.value if thread.is_unwinding else 0
    record = THREAD.pack(number, flags, len(thread.handlers), 0, value, thread.pc, *thread.registers[1:])
    return record + b"".join(HANDLER.pack(*handler) for handler in thread.handlers)


def wait_record(wait):
    """What a kind of wait doesn't use is 0."""
    result = 0
    if wait.kind is WaitKind.RETAKE:
        result = UNWIND_RESULT if wait.result == UNWIND else int(wait.result)
    subject = 0 if wait.kind in WITHOUT_SUBJECT else wait.subject
    mutex = wait.mutex if wait.kind is WaitKind.CONDITION else 0
    is_timed = wait.deadline is not None
    return WAIT.pack(wait.thread, WAIT_KINDS.index(wait.kind), result, is_timed, subject, mutex, wait.deadline or 0)


def lock_record(address, lock):
    readers = [READER.pack(*reader) for reader in sorted(lock.readers.items())]
    return LOCK.pack(address, lock.writer, len(readers)) + b"".join(readers)


def saved_mutexes(state):
    return [(at, mutex) for at, mutex in sorted(state.mutexes.items()) if mutex.owner or mutex.kind]


def saved_locks(state):
    return [(at, lock) for at, lock in sorted(state.locks.items()) if lock.writer or lock.readers]


def key_records(state, version):
    """The mark, and each key with its destructor."""
    if version == 1:
        return b""
    return BYTE.pack(state.has_keys) + counted(BYTE, [KEYED.pack(*row) for row in sorted(state.keys.items())])


def encode_tables(state, held, version=None):
    """Of the newest version, where none is told. Version 1 leaves keys out."""
    version = version or newest_version()
    is_faulted = state.status is Status.FAULTED
    fault = (state.fault_thread, state.fault_cause) if is_faulted else (0, 0)
    word = 0 if state.status is Status.RUNNING else state.status_word
    return b"".join([
        HEAD.pack(state.clock, state.is_input_closed, STATUSES.index(state.status), *fault, word),
        bytes(state.harts),
        counted(BYTE, [thread_record(*row, version) for row in sorted(state.threads.items())]),
        counted(BYTE, [wait_record(wait) for wait in state.waits]),
        counted(HALF, [MUTEX.pack(at, mutex.kind, mutex.owner, mutex.count) for at, mutex in saved_mutexes(state)]),
        counted(BYTE, [BARRIER.pack(*row) for row in sorted(state.barriers.items())]),
        counted(BYTE, [lock_record(*row) for row in saved_locks(state)]),
        key_records(state, version),
        HALF.pack(len(state.input)) + bytes(state.input),
        HALF.pack(len(held)) + bytes(held),
    ])


class NoEncoding(Exception):
    """The bytes end too early, or a number has no meaning."""


class Reader:
    """Takes numbers from the front of bytes."""

    def __init__(self, data):
        self.data, self.at = data, 0

    def bytes(self, length):
        self.at += length
        if self.at > len(self.data):
            raise NoEncoding
        return self.data[self.at - length:self.at]

    def numbers(self, record):
        return record.unpack(self.bytes(record.size))

    def number(self, record):
        return self.numbers(record)[0]

    def turns(self, count):
        return range(self.number(count))


def meaning(choices, number):
    if not 0 <= number < len(choices) or choices[number] is None:
        raise NoEncoding
    return choices[number]


def read_keyed(reader, count):
    return dict(reader.numbers(KEYED) for _ in range(count))


def read_thread(reader, version):
    number, flags, handlers, _, value, pc, *registers = reader.numbers(THREAD)
    thread = Thread(pc=pc, registers=[0, *registers], value=value)
    for bit, name in enumerate(FLAGS):
        setattr(thread, name, bool(flags >> bit & 1))
    thread.handlers = [Handler(*reader.numbers(HANDLER)) for _ in range(handlers)]
    if version > 1:
        thread.round, thread.next_key, values, _ = reader.numbers(ROUND)
        thread.values = read_keyed(reader, values)
    return number, thread


def read_wait(reader):
    thread, kind, result, is_timed, subject, mutex, deadline = reader.numbers(WAIT)
    result = UNWIND if result == UNWIND_RESULT else result
    return Wait(thread, meaning(WAIT_KINDS, kind), subject, mutex, result, deadline if is_timed else None)


def read_mutex(reader):
    address, kind, owner, count = reader.numbers(MUTEX)
    return address, Mutex(meaning(list(MutexKind), kind), owner, count)


def read_lock(reader):
    address, writer, readers = reader.numbers(LOCK)
    return address, ReadWriteLock(writer, dict(reader.numbers(READER) for _ in range(readers)))


def read_tables(data, version=None):
    """A state and held output, read leniently."""
    version, reader, state = version or newest_version(), Reader(bytes(data)), State()
    clock, closed, status, state.fault_thread, state.fault_cause, state.status_word = reader.numbers(HEAD)
    state.clock, state.is_input_closed, state.status = clock, bool(closed), meaning(STATUSES, status)
    state.harts = list(reader.bytes(HARTS))
    state.threads = dict(read_thread(reader, version) for _ in reader.turns(BYTE))
    state.waits = [read_wait(reader) for _ in reader.turns(BYTE)]
    state.mutexes = dict(read_mutex(reader) for _ in reader.turns(HALF))
    state.barriers = dict(reader.numbers(BARRIER) for _ in reader.turns(BYTE))
    state.locks = dict(read_lock(reader) for _ in reader.turns(BYTE))
    state.has_keys = version > 1 and bool(reader.number(BYTE))
    state.keys = read_keyed(reader, reader.number(BYTE)) if version > 1 else {}
    state.input = list(reader.bytes(reader.number(HALF)))
    return state, bytes(reader.bytes(reader.number(HALF)))


def decode_tables(data, harts, version=None):
    """The well-formed state with so many harts, and the held output, whose bytes these are; None where there are none."""
    try:
        state, held = read_tables(data, version)
    except NoEncoding:
        return None
    if encode_tables(state, held, version) != data or not is_well_formed(state, held, harts):
        return None
    return state, held
