"""Saved tables by hand: the bytes of states, and which changes of a well-formed state leave none."""
import unittest

from model.abi import ALL_ONES, MOMENTS, RETURN_GATE
from model.devices import MemoryDisk
from model.layout import Geometry, format_disk, fresh_tables
from model.lines import serve_disk
from model.machine import Machine
from model.objects import Mutex, ReadWriteLock
from model.recovery import tables_of
from model.tables import decode_tables, encode_tables
from model.threads import UNWIND, Handler, State, Thread, Wait, WaitKind, new_thread

HARTS = 2
MUTEX, OTHER, CONDITION, BARRIER, LOCK, READ_LOCK = 0x2000, 0x2004, 0x3000, 0x4000, 0x5000, 0x5004


def crowd():
    """A running state with a wait of every kind; thread 1 holds what the others wait for."""
    state = State()
    state.clock, state.harts = 5, [1, 12] + 6 * [0]
    state.threads = {number: new_thread(0x1010, number, 0x8000, False) for number in range(1, 13)}
    state.threads[1].is_initial = True
    state.threads[1].handlers = [Handler(0x1100, 7), Handler(0x1200, 9)]
    state.threads[5].is_unwinding = state.threads[5].is_disabled = True
    state.threads[5].value = ALL_ONES
    state.threads[11] = Thread(has_ended=True, value=77)
    state.threads[12].is_detached = True
    state.waits = [Wait(4, WaitKind.CONDITION, CONDITION, MUTEX), Wait(2, WaitKind.JOIN, 3),
                   Wait(3, WaitKind.LOCK, MUTEX, deadline=9), Wait(5, WaitKind.RETAKE, MUTEX, result=UNWIND),
                   Wait(6, WaitKind.BARRIER, BARRIER), Wait(7, WaitKind.READ, LOCK), Wait(8, WaitKind.WRITE, LOCK),
                   Wait(9, WaitKind.INPUT), Wait(10, WaitKind.SLEEP, deadline=6)]
    state.mutexes = {MUTEX: Mutex(1, 1, 2), OTHER: Mutex(2, 0, 0), 0x2008: Mutex()}
    state.barriers = {BARRIER: 3}
    state.locks = {LOCK: ReadWriteLock(1), READ_LOCK: ReadWriteLock(0, {12: 3, 2: 1}), 0x5008: ReadWriteLock()}
    return state


def number_bytes(length, number):
    return number.to_bytes(length, "little")


def record_of_thread(front, value, pc, *registers):
    """The id, flags and number of handlers as they are; registers from x1 on, the rest of them 0."""
    words = [value, pc, *registers] + [0] * (31 - len(registers))
    return bytes.fromhex(front) + b"\0" + b"".join(number_bytes(4, word) for word in words)


class Bytes(unittest.TestCase):
    """Encodings written down by hand."""

    def test_fresh(self):
        thread = record_of_thread("01 01 00", 0, 0x1000, RETURN_GATE, 16 * 4096)
        by_hand = bytes(16) + bytes(8) + b"\x01" + thread + bytes(1 + 2 + 1 + 1 + 2 + 2)
        self.assertEqual(len(by_hand), 170)
        self.assertEqual(fresh_tables(16), by_hand)

    def test_crowd(self):
        parts = [
            "0500000000000000 00 00 00 00 00000000", "01 0c 00 00 00 00 00 00",
            "0c", record_of_thread("01 01 02", 0, 0x1010, RETURN_GATE, 0x8000, *7 * [0], 1).hex(), "00110000 07000000 00120000 09000000",
            *[record_of_thread(f"{number:02x} 00 00", 0, 0x1010, RETURN_GATE, 0x8000, *7 * [0], number).hex() for number in (2, 3, 4)],
            record_of_thread("05 24 00", ALL_ONES, 0x1010, RETURN_GATE, 0x8000, *7 * [0], 5).hex(),
            *[record_of_thread(f"{number:02x} 00 00", 0, 0x1010, RETURN_GATE, 0x8000, *7 * [0], number).hex() for number in range(6, 11)],
            record_of_thread("0b 40 00", 77, 0).hex(),
            record_of_thread("0c 02 00", 0, 0x1010, RETURN_GATE, 0x8000, *7 * [0], 12).hex(),
            "09", "04 04 00 00 00300000 00200000 0000000000000000", "02 01 00 00 03000000 00000000 0000000000000000",
            "03 02 00 01 00200000 00000000 0900000000000000", "05 03 ff 00 00200000 00000000 0000000000000000",
            "06 05 00 00 00400000 00000000 0000000000000000", "07 06 00 00 00500000 00000000 0000000000000000",
            "08 07 00 00 00500000 00000000 0000000000000000", "09 08 00 00 00000000 00000000 0000000000000000",
            "0a 09 00 01 00000000 00000000 0600000000000000",
            "0200", "00200000 01 01 0200", "04200000 02 00 0000", "01", "00400000 03000000",
            "02", "00500000 01 00", "04500000 00 02 02 0100 0c 0300", "0000", "0300 414243",
        ]
        by_hand = bytes.fromhex("".join(parts))
        self.assertEqual(encode_tables(crowd(), b"ABC"), by_hand)
        state, held = decode_tables(by_hand, HARTS)
        self.assertEqual(held, b"ABC")
        self.assertEqual(encode_tables(state, held), by_hand)
        self.assertEqual([wait.thread for wait in state.waits], [4, 2, 3, 5, 6, 7, 8, 9, 10])

    def test_flags(self):
        names = {"is_initial": 1, "is_detached": 2, "is_disabled": 4, "is_asynchronous": 8, "is_request_pending": 16}
        for name, flag in names.items():
            state = State()
            state.threads = {1: Thread(pc=4, **{name: True})}
            self.assertEqual(encode_tables(state, b"")[24 + 1 + 1], flag)

    def test_status(self):
        state = crowd()
        state.waits = []
        state.end_process(0x12345678)
        self.assertEqual(encode_tables(state, b"")[8:16].hex(), "0001000078563412")
        state.fault(12, 9)
        self.assertEqual(encode_tables(state, b"")[8:16].hex(), "00020c0910100000")

    def test_longest(self):
        state = State()
        handlers = 16 * [Handler(4, 1)]
        state.threads = {number: Thread(pc=4, handlers=list(handlers)) for number in range(1, 65)}
        state.waits = [Wait(number, WaitKind.SLEEP, deadline=1) for number in range(1, 65)]
        state.mutexes = {4 * number: Mutex(1) for number in range(256)}
        state.barriers = {4 * number: 1 for number in range(64)}
        state.locks = {4 * number: ReadWriteLock(0, {reader: 1 for reader in range(1, 65)}) for number in range(64)}
        state.input = list(bytes(4096))
        tables = encode_tables(state, bytes(16384))
        self.assertEqual(len(tables), 53922)
        self.assertIsNotNone(decode_tables(tables, 1))

    def test_exit_at_the_gate(self):
        """A thread that returns at once, with x10 0x41: the status word is x10."""
        image = bytes.fromhex("13051004 67800000".replace(" ", ""))
        disk = format_disk(Geometry(16, 1, 4096), image)
        serve_disk(disk, b"place 0 1\nrun 0 9\ncheckpoint\n")
        tables = tables_of(MemoryDisk(disk), Geometry(16, 1, 4096), 1)
        self.assertEqual(tables[8:16].hex(), "0001000041000000")


def at(thread, **fields):
    def change(state):
        for name, value in fields.items():
            setattr(state.threads[thread], name, value)
    return change


def wait(thread, **fields):
    def change(state):
        for name, value in fields.items():
            setattr(state.wait_of(thread), name, value)
    return change


def of(**fields):
    def change(state):
        for name, value in fields.items():
            setattr(state, name, value)
    return change


def put(table, key, value):
    def change(state):
        getattr(state, table)[key] = value
    return change


def without(table, key):
    def change(state):
        del getattr(state, table)[key]
    return change


def unwait(thread):
    def change(state):
        state.waits.remove(state.wait_of(thread))
    return change


def add_wait(*arguments, **fields):
    def change(state):
        state.waits.append(Wait(*arguments, **fields))
    return change


def both(*changes):
    def change(state):
        for one in changes:
            one(state)
    return change


def ended():
    """The program ends, and all that waits stays."""
    def change(state):
        state.end_process(3)
    return change


def all_ended(state):
    state.threads = {number: Thread(has_ended=True) for number in state.threads}
    state.waits, state.harts = [], 8 * [0]


many_mutexes = {0x10000 + 4 * number: Mutex(2) for number in range(300)}
many_locks = {0x10000 + 4 * number: ReadWriteLock(12) for number in range(300)}


def first_items(table, count):
    return dict(list(table.items())[:count])


STAYS = {
    "nothing": both(), "a pc of 0": at(2, pc=0), "no initial thread": at(1, is_initial=False),
    "16 handlers": at(2, handlers=16 * [Handler(0, 0)]), "two exchanged waits": lambda state: state.waits.reverse(),
    "a deadline just ahead": wait(10, deadline=6), "the last deadline": wait(10, deadline=MOMENTS - 1),
    "a timed condition": wait(4, deadline=6), "an owner that isn't there": put("mutexes", OTHER, Mutex(0, 64, 1)),
    "a writer that isn't there": put("locks", READ_LOCK, ReadWriteLock(64)),
    "a reader that isn't there": put("locks", READ_LOCK, ReadWriteLock(0, {63: 65535})),
    "the highest count": put("mutexes", MUTEX, Mutex(1, 1, 65535)),
    "a retake with 110": wait(5, result=110), "a retake with 0": wait(5, result=0),
    "a waiter of its own normal mutex": both(put("mutexes", MUTEX, Mutex(0, 3, 1))),
    "a condition's waiter with levels left": put("mutexes", MUTEX, Mutex(1, 4, 65534)),
    "two conditions": both(unwait(9), add_wait(9, WaitKind.CONDITION, CONDITION + 4, OTHER)),
    "a barrier that is nearly full": put("barriers", BARRIER, 2), "closed input": both(unwait(9), of(is_input_closed=True)),
    "a full queue": both(unwait(9), of(input=4096 * [7])), "an ended program": ended(),
    "an ended program with a deadline that has come": both(ended(), of(clock=9)),
    "an ended program without live threads": both(all_ended, ended()),
    "a fault of a thread that waits": lambda state: state.fault(2, 1),
    "a fault elsewhere": both(lambda state: state.fault(2, 9), of(status_word=4)),
    "a thread on the last hart": of(harts=[0, 1] + 6 * [0]),
    "a barrier of nobody": put("barriers", 0, ALL_ONES),
    "256 mutexes": lambda state: state.mutexes.update(first_items(many_mutexes, 254)),
    "64 locks": lambda state: state.locks.update(first_items(many_locks, 62)),
    "64 barriers": lambda state: state.barriers.update({4 * number: 1 for number in range(63)}),
    "a detached thread that waits": at(7, is_detached=True), "a pending request": at(4, is_request_pending=True),
    "a disabled asynchronous thread": at(2, is_disabled=True, is_asynchronous=True),
    "the clock's end": both(unwait(10), unwait(3), of(clock=MOMENTS - 1)),
    "a writer first, facing readers": both(put("locks", LOCK, ReadWriteLock(0, {1: 1})), lambda state: state.waits.reverse()),
}
GOES = {
    "an id of 0": lambda state: state.threads.update({0: state.threads.pop(6), }) or state.waits.pop(4),
    "an id of 65": put("threads", 65, Thread()), "an odd pc": at(2, pc=1), "a pc between words": at(2, pc=2),
    "an odd routine": at(1, handlers=[Handler(0x1102, 0)]), "17 handlers": at(2, handlers=17 * [Handler(0, 0)]),
    "unwinding while enabled": at(5, is_disabled=False), "unwinding while asynchronous": at(5, is_asynchronous=True),
    "two initial threads": at(2, is_initial=True),
    "a waiter that isn't there": without("threads", 7), "a waiter that has ended": put("threads", 7, Thread(has_ended=True)),
    "a second wait": add_wait(7, WaitKind.SLEEP, deadline=6), "a waiter on a hart": of(harts=[1, 7] + 6 * [0]),
    "an ended thread on a hart": of(harts=[1, 11] + 6 * [0]), "nobody on a hart": of(harts=[1, 13] + 6 * [0]),
    "one thread on two harts": of(harts=[1, 1] + 6 * [0]), "a hart too many": of(harts=[1, 0, 12] + 5 * [0]),
    "nobody left": all_ended, "a deadline of a join": wait(2, deadline=9), "a deadline of a retake": wait(5, deadline=9),
    "a deadline of a barrier": wait(6, deadline=9), "a deadline of a reader": wait(7, deadline=9),
    "a deadline of a writer": wait(8, deadline=9), "a deadline of a getc": wait(9, deadline=9),
    "a sleep for ever": wait(10, deadline=None), "a deadline that has come": wait(10, deadline=5),
    "a deadline at the end of time": wait(10, deadline=MOMENTS), "a clock at the end of time": both(ended(), of(clock=MOMENTS)),
    "a deadline at the end of time, ended": both(ended(), wait(10, deadline=MOMENTS)),
    "a join of nobody": wait(2, subject=13), "a join of an ended thread": wait(2, subject=11),
    "a join of a detached thread": at(3, is_detached=True), "a join of oneself": wait(2, subject=2),
    "two joiners": both(unwait(9), add_wait(9, WaitKind.JOIN, 3)),
    "an owner of 65": put("mutexes", OTHER, Mutex(0, 65, 1)), "a free mutex with a count": put("mutexes", OTHER, Mutex(2, 0, 1)),
    "an owner without a count": put("mutexes", OTHER, Mutex(0, 1, 0)), "an errorcheck count of 2": put("mutexes", OTHER, Mutex(2, 1, 2)),
    "a normal count of 2": put("mutexes", OTHER, Mutex(0, 1, 2)), "a kind of 3": put("mutexes", OTHER, Mutex(3, 1, 1)),
    "a reader without a count": put("locks", READ_LOCK, ReadWriteLock(0, {2: 0})),
    "a reader of 0": put("locks", READ_LOCK, ReadWriteLock(0, {0: 1})), "a writer of 65": put("locks", READ_LOCK, ReadWriteLock(65)),
    "257 mutexes": lambda state: state.mutexes.update(first_items(many_mutexes, 255)),
    "257 mutexes, one named by a condition alone": lambda state: (
        state.mutexes.update(first_items(many_mutexes, 254)), state.waits.remove(state.wait_of(9)),
        state.waits.append(Wait(9, WaitKind.CONDITION, 0x9000, 0x9000))),
    "65 locks": lambda state: state.locks.update(first_items(many_locks, 63)),
    "65 barriers": lambda state: state.barriers.update({4 * number: 1 for number in range(64)}),
    "a waiter of its own recursive mutex": put("mutexes", MUTEX, Mutex(1, 3, 1)),
    "a waiter of its own errorcheck mutex": put("mutexes", MUTEX, Mutex(2, 3, 1)),
    "a retake of its own": put("mutexes", MUTEX, Mutex(1, 5, 1)),
    "a condition's waiter with all levels": put("mutexes", MUTEX, Mutex(1, 4, 65535)),
    "a condition's waiter that owns a normal mutex": put("mutexes", MUTEX, Mutex(0, 4, 1)),
    "a condition's waiter that owns an errorcheck mutex": put("mutexes", MUTEX, Mutex(2, 4, 1)),
    "a retake to unwind by one that doesn't": at(5, is_unwinding=False), "a retake with 1": wait(5, result=1),
    "two mutexes of a condition": both(unwait(9), add_wait(9, WaitKind.CONDITION, CONDITION, OTHER)),
    "a barrier of 0": put("barriers", 0, 0), "a barrier that is full": put("barriers", BARRIER, 1),
    "a wait at no barrier": without("barriers", BARRIER),
    "readers beside a writer": put("locks", LOCK, ReadWriteLock(1, {12: 1})),
    "a reader that waits for its lock": put("locks", LOCK, ReadWriteLock(1, {7: 1})),
    "a writer that waits for its lock": put("locks", LOCK, ReadWriteLock(8)),
    "a writer that waits to read": put("locks", LOCK, ReadWriteLock(7)),
    "a reader that waits to write": both(put("locks", LOCK, ReadWriteLock(0, {8: 1})), lambda state: state.waits.reverse()),
    "a wait for a free mutex": put("mutexes", MUTEX, Mutex(1, 0, 0)), "a wait for an unknown mutex": without("mutexes", MUTEX),
    "a first reader beside readers": put("locks", LOCK, ReadWriteLock(0, {1: 1})),
    "a wait for a free lock": without("locks", LOCK),
    "a getc though there is input": of(input=[65]), "a getc though the input is closed": of(is_input_closed=True),
    "a queue too long": both(unwait(9), of(input=4097 * [7])),
    "a fault of nobody": lambda state: both(lambda s: s.fault(2, 1), of(fault_thread=13))(state),
    "a fault of an ended thread": lambda state: both(lambda s: s.fault(2, 1), of(fault_thread=11))(state),
    "a fault of cause 0": lambda state: state.fault(2, 0), "a fault of cause 10": lambda state: state.fault(2, 10),
    "a fault between words": lambda state: both(lambda s: s.fault(2, 1), of(status_word=2))(state),
}


class Rules(unittest.TestCase):
    def outcome(self, change, held=b"", harts=HARTS):
        state = crowd()
        change(state)
        return decode_tables(encode_tables(state, held), harts)

    def test_what_stays(self):
        for name, change in STAYS.items():
            with self.subTest(name):
                self.assertIsNotNone(self.outcome(change))

    def test_what_goes(self):
        for name, change in GOES.items():
            with self.subTest(name):
                self.assertIsNone(self.outcome(change))

    def test_held_output(self):
        self.assertIsNotNone(self.outcome(both(), bytes(16384)))
        self.assertIsNone(self.outcome(both(), bytes(16385)))

    def test_harts(self):
        self.assertIsNone(self.outcome(both(), harts=1))
        self.assertIsNotNone(self.outcome(of(harts=[1] + 7 * [0]), harts=1))


class Strictness(unittest.TestCase):
    """One byte more, one byte less, or a byte that nothing uses: no state has these bytes."""

    def setUp(self):
        self.tables = encode_tables(crowd(), b"ABC")
        self.waits_at = 24 + 1 + 12 * 136 + 2 * 8 + 1

    def goes(self, place, byte):
        changed = bytearray(self.tables)
        changed[place] = byte
        self.assertIsNone(decode_tables(bytes(changed), HARTS))

    def test_length(self):
        for length in range(len(self.tables)):
            self.assertIsNone(decode_tables(self.tables[:length], HARTS))
        self.assertIsNone(decode_tables(self.tables + b"\0", HARTS))

    def test_unused(self):
        for place in (8, 9, 10, 11, 12, 15):  # closed, status, fault, status word
            self.goes(place, 3)
        self.goes(24 + 1 + 1, 0x81)  # a flag that there isn't
        self.goes(24 + 1 + 3, 1)
        self.goes(24 + 1 + 4, 1)  # a value of a thread that doesn't unwind
        ended = self.waits_at - 1 - 2 * 136
        self.assertEqual(self.tables[ended], 11)
        for place in (ended + 1, ended + 2, ended + 8, ended + 135):
            self.goes(place, 0x41)
        for wait in range(9):
            for place in (2, 8, 12, 19) if wait != 0 else (2, 12, 19):
                if (wait, place) not in ((2, 12), (3, 2), (8, 12), (2, 19), (8, 19)):
                    self.goes(self.waits_at + 20 * wait + place, 7)
            self.goes(self.waits_at + 20 * wait + 3, 2)
            self.goes(self.waits_at + 20 * wait + 1, 0)
            self.goes(self.waits_at + 20 * wait + 1, 10)

    def test_order(self):
        mutexes = self.waits_at + 9 * 20 + 2
        exchanged = self.tables[:mutexes] + self.tables[mutexes + 8:mutexes + 16] + self.tables[mutexes:mutexes + 8]
        self.assertIsNone(decode_tables(exchanged + self.tables[mutexes + 16:], HARTS))
        twice = self.tables[:mutexes + 8] + self.tables[mutexes:mutexes + 8] + self.tables[mutexes + 16:]
        self.assertIsNone(decode_tables(twice, HARTS))
        threads = 24 + 1 + 136 + 16
        exchanged = self.tables[:threads] + self.tables[threads + 136:threads + 272] + self.tables[threads:threads + 136]
        self.assertIsNone(decode_tables(exchanged + self.tables[threads + 272:], HARTS))

    def test_free_records(self):
        """A free normal mutex and an unheld lock have no record."""
        mutexes = self.waits_at + 9 * 20
        free = self.tables[:mutexes] + b"\3\0" + self.tables[mutexes + 2:mutexes + 18] + bytes.fromhex("0820000000000000")
        self.assertIsNone(decode_tables(free + self.tables[mutexes + 18:], HARTS))
        locks = mutexes + 18 + 1 + 8
        unheld = self.tables[:locks] + b"\3" + self.tables[locks + 1:locks + 19] + bytes.fromhex("085000000000")
        self.assertIsNone(decode_tables(unheld + self.tables[locks + 19:], HARTS))


class Resumed(unittest.TestCase):
    def test_machine(self):
        """A machine that goes on from tables has all of the state."""
        state, held = decode_tables(encode_tables(crowd(), b""), HARTS)
        machine = Machine(16, HARTS, bytes(15 * 4096))
        machine.resume(state)
        self.assertEqual(encode_tables(machine, held), encode_tables(crowd(), b""))
        self.assertEqual(machine.tick(4), 2)
