"""Thread-specific keys: worked examples, calls, destructors, saved tables of both versions, and the random cases with them."""
import struct
import unittest
from collections import Counter

from cases.kinds import case_of
from compare import life_of_model
from model.abi import ALL_ONES, RETURN_GATE, UNWIND_GATE, Call, Error
from model.calls import BLOCKED
from model.devices import MemoryDisk
from model.layout import format_disk, fresh_tables, header_of
from model.ledger import transcript
from model.lines import serve_disk
from model.listing import lines_of_state, listing
from model.machine import Machine
from model.objects import Mutex, ReadWriteLock
from model.recovery import Unrecovered, recover, tables_of
from model.switches import SWITCHES, switched
from model.tables import decode_tables, encode_tables
from model.threads import Handler, State, Thread, Wait, WaitKind
from unit.test_calls import Calls
from unit.test_rows import PUTS_A, SMALL, image
from unit.test_tables import HARTS, at, both, crowd, of, put, record_of_thread, without

MUTEX = 0x2000
FIRST, SECOND, THIRD = 0x1100, 0x1200, 0x1300
MAKES_KEY = ("00001537 02850513 04600893 00000073 00058513 04300593 04800893 00000073 00d00893 00000073 00200893 00000073 "
             "00008067")
SETS_AGAIN = MAKES_KEY.removesuffix("00200893 00000073 00008067") + "00050593 00000513 04800893 00000073 00008067"
RUN = b"place 0 1\nrun 0 99\ncommit\n"


class WithKeys(unittest.TestCase):
    def setUp(self):
        switch = switched(keys=True)
        switch.__enter__()
        self.addCleanup(switch.__exit__, None, None, None)
        super().setUp()


class Rows(WithKeys):
    def test_destructor_puts(self):
        self.assertEqual(serve_disk(format_disk(SMALL, image(MAKES_KEY)), RUN),
                         ["ok 1 placed", "ok 2 ran 14 end", "ack 2", "out 0 43"])

    def test_four_rounds(self):
        self.assertEqual(serve_disk(format_disk(SMALL, image(SETS_AGAIN)), RUN)[1], "ok 2 ran 34 end")

    def test_version_1(self):
        disk = format_disk(SMALL, image(MAKES_KEY), 1)
        self.assertEqual(serve_disk(disk, RUN), ["ok 1 placed", "ok 2 ran 10 end", "ack 2"])
        self.assertTrue(listing(disk).endswith("\nkeys off\n"))

    def test_before_there_are_keys(self):
        with switched(keys=False):
            disk = format_disk(SMALL, image(MAKES_KEY))
            self.assertEqual(serve_disk(disk, RUN)[1], "ok 2 ran 10 end")
            self.assertNotIn("keys", listing(disk))
            self.assertFalse(Machine(16, 1, bytes(61440)).has_keys)


class KeyCalls(WithKeys, Calls):
    def x11(self, number):
        return self.machine.threads[number].registers[11]

    def test_create(self):
        """The least free key; the bad destructor is tested first."""
        self.assertEqual([self.call(Call.KEY_CREATE, 1, place) for place in (2, 1, ALL_ONES)], 3 * [Error.EINVAL])
        for key in range(32):
            self.assertEqual((self.call(Call.KEY_CREATE, 1, 0), self.x11(1)), (0, key))
        self.assertEqual([self.call(Call.KEY_CREATE, 1, 4), self.call(Call.KEY_CREATE, 1, 2)], [Error.EAGAIN, Error.EINVAL])
        self.assertEqual([self.call(Call.KEY_DELETE, 2, key) for key in (9, 5, 5, 32)], [0, 0, Error.EINVAL, Error.EINVAL])
        self.assertEqual((self.call(Call.KEY_CREATE, 1, ALL_ONES - 3), self.x11(1)), (0, 5))

    def test_refused_keeps_second_result(self):
        self.machine.threads[1].registers[11] = 77
        for call in (Call.KEY_CREATE, Call.KEY_DELETE, Call.SETSPECIFIC, Call.GETSPECIFIC):
            self.assertEqual(self.performed(call, 1, 2), Error.EINVAL)
        self.assertEqual((self.x11(1), self.machine.keys), (77, {}))

    def test_values(self):
        """Each thread has its own; a deleted key takes them along."""
        self.call(Call.KEY_CREATE, 1, 0)
        self.assertEqual([self.call(Call.SETSPECIFIC, 1, 0, 7), self.call(Call.SETSPECIFIC, 2, 0, ALL_ONES)], [0, 0])
        for number, value in ((1, 7), (2, ALL_ONES), (3, 0)):
            self.assertEqual((self.call(Call.GETSPECIFIC, number, 0), self.x11(number)), (0, value))
        self.call(Call.SETSPECIFIC, 1, 0, 0)
        self.assertEqual((self.call(Call.GETSPECIFIC, 1, 0), self.x11(1), self.machine.threads[1].values), (0, 0, {}))
        self.assertEqual([self.call(Call.KEY_DELETE, 1, 0), self.call(Call.GETSPECIFIC, 2, 0), self.call(Call.KEY_CREATE, 1, 0)],
                         [0, Error.EINVAL, 0])
        self.assertEqual((self.call(Call.GETSPECIFIC, 2, 0), self.x11(2)), (0, 0))

    def test_without_keys(self):
        self.machine.has_keys = False
        for call in (Call.KEY_CREATE, Call.KEY_DELETE, Call.SETSPECIFIC, Call.GETSPECIFIC):
            self.assertEqual(self.performed(call, 1, 0), Error.ENOSYS)
        self.assertEqual(self.performed(74, 1, 0), Error.ENOSYS)


class Destructors(WithKeys, Calls):
    def setUp(self):
        """Keys 0 and 2 with destructors, 1 without; thread 2 has a value of each."""
        super().setUp()
        self.machine.keys = {0: FIRST, 1: 0, 2: SECOND}
        self.thread = self.machine.threads[2]
        self.thread.values = {0: 10, 1: 11, 2: 12}

    def place(self):
        return self.thread.pc, self.thread.registers[10], self.thread.registers[1]

    def go_on(self):
        """From the gate."""
        self.thread.pc = UNWIND_GATE
        self.machine.step_thread(2)

    def test_order(self):
        self.call(Call.THREAD_EXIT, 2, 5)
        self.assertEqual(self.place(), (FIRST, 10, UNWIND_GATE))
        self.assertEqual((self.thread.values, self.thread.round, self.thread.next_key), ({1: 11, 2: 12}, 1, 1))
        self.go_on()
        self.assertEqual(self.place(), (SECOND, 12, UNWIND_GATE))
        self.assertEqual((self.thread.round, self.thread.next_key), (1, 3))
        self.go_on()
        self.assertEqual(self.machine.threads[2], Thread(has_ended=True, value=5))

    def test_rounds(self):
        """A value that is set above is taken in this round, one below in the next; after four rounds the thread ends."""
        self.thread.values = {0: 10}
        self.call(Call.THREAD_EXIT, 2, 5)
        self.call(Call.SETSPECIFIC, 2, 2, 20)
        self.call(Call.SETSPECIFIC, 2, 0, 30)
        self.go_on()
        self.assertEqual((self.place()[:2], self.thread.round), ((SECOND, 20), 1))
        for number in (2, 3, 4):
            self.go_on()
            self.assertEqual((self.place()[:2], self.thread.round, self.thread.next_key), ((FIRST, 30), number, 1))
            self.call(Call.SETSPECIFIC, 2, 0, 30)
        self.go_on()
        self.assertEqual(self.machine.threads[2], Thread(has_ended=True, value=5))

    def test_handlers_first(self):
        """Those that are pushed meanwhile too, and the round goes on behind them."""
        self.call(Call.CLEANUP_PUSH, 2, THIRD, 1)
        self.call(Call.THREAD_EXIT, 2, 5)
        self.assertEqual((self.place()[:2], self.thread.round), ((THIRD, 1), 0))
        self.go_on()
        self.call(Call.CLEANUP_PUSH, 2, THIRD, 2)
        self.call(Call.THREAD_EXIT, 2, 6)
        self.assertEqual((self.place()[:2], self.thread.round, self.thread.next_key), ((THIRD, 2), 1, 1))
        self.go_on()
        self.assertEqual(self.place()[:2], (SECOND, 12))
        self.go_on()
        self.assertEqual(self.machine.threads[2], Thread(has_ended=True, value=6))

    def test_deleted_meanwhile(self):
        self.call(Call.THREAD_EXIT, 2, 5)
        self.call(Call.KEY_DELETE, 3, 2)
        self.go_on()
        self.assertTrue(self.machine.threads[2].has_ended)

    def test_created_meanwhile(self):
        """A key below the next one comes in the next round."""
        self.call(Call.KEY_DELETE, 3, 1)
        self.call(Call.THREAD_EXIT, 2, 5)
        self.go_on()
        self.assertEqual((self.call(Call.KEY_CREATE, 2, THIRD), self.call(Call.SETSPECIFIC, 2, 1, 9)), (0, 0))
        self.go_on()
        self.assertEqual((self.place()[:2], self.thread.round, self.thread.next_key), ((THIRD, 9), 2, 2))

    def test_hand_over(self):
        """Where an unwinding thread gets its mutex back, the destructor runs."""
        self.call(Call.MUTEX_LOCK, 2, MUTEX)
        self.assertEqual(self.call(Call.COND_WAIT, 2, 0x3000, MUTEX), BLOCKED)
        self.call(Call.MUTEX_LOCK, 3, MUTEX)
        self.call(Call.CANCEL, 3, 2)
        self.assertEqual((self.thread.is_unwinding, self.thread.round, self.thread.values[0]), (True, 0, 10))
        self.call(Call.MUTEX_UNLOCK, 3, MUTEX)
        self.assertEqual((self.place(), self.owner(MUTEX), self.thread.round), ((FIRST, 10, UNWIND_GATE), 2, 1))

    def test_no_hand_over(self):
        """A cancelled waiter of a free mutex has it at once."""
        self.call(Call.MUTEX_LOCK, 2, MUTEX)
        self.call(Call.COND_WAIT, 2, 0x3000, MUTEX)
        self.call(Call.CANCEL, 3, 2)
        self.assertEqual((self.place()[:2], self.owner(MUTEX)), ((FIRST, 10), 2))

    def test_return(self):
        """At the gate of a start routine; of the initial thread no destructor runs, and none by `exit`."""
        self.thread.pc = RETURN_GATE
        self.machine.step_thread(2)
        self.assertEqual(self.place()[:2], (FIRST, 10))
        self.machine.threads[1].values, self.machine.threads[1].pc = {0: 4}, RETURN_GATE
        self.machine.step_thread(1)
        self.assertEqual((self.machine.is_running, self.machine.threads[1].values), (False, {0: 4}))

    def test_join(self):
        """The joiner waits for the destructors."""
        self.assertEqual(self.call(Call.JOIN, 1, 2), BLOCKED)
        self.call(Call.THREAD_EXIT, 2, 5)
        self.assertFalse(self.machine.is_ready(1))
        self.go_on()
        self.go_on()
        self.assertEqual((self.machine.is_ready(1), self.machine.threads[1].registers[11], 2 in self.machine.threads), (True, 5, False))


def crowd_with_keys():
    """Keys 0, 3 and 31; thread 5 unwinds, in its second round."""
    state = crowd()
    state.keys = {0: FIRST, 31: ALL_ONES - 3, 3: 0}
    state.threads[1].values = {31: 5, 0: 6}
    state.threads[5].values, state.threads[5].round, state.threads[5].next_key = {3: ALL_ONES}, 2, 4
    return state


class Bytes(WithKeys):
    """Encodings written down by hand."""

    def test_fresh(self):
        thread = record_of_thread("01 01 00", 0, 0x1000, RETURN_GATE, 16 * 4096) + bytes(4)
        by_hand = bytes(16) + bytes(8) + b"\x01" + thread + bytes(1 + 2 + 1 + 1) + b"\x01\x00" + bytes(2 + 2)
        self.assertEqual((len(by_hand), fresh_tables(16)), (176, by_hand))
        self.assertEqual(len(fresh_tables(16, 1)), 170)
        disk = format_disk(SMALL, b"")
        self.assertEqual(struct.unpack("<QQQII", disk[4104:4136]), (1, 0, 0, 176, 2))
        self.assertEqual(disk[16:20], b"\1\0\0\0")

    def test_by_hand(self):
        state = State()
        state.threads = {3: Thread(pc=8, values={7: 2, 1: 9}, handlers=[Handler(0x1100, 7)], is_unwinding=True, is_disabled=True,
                                   round=4, next_key=32), 4: Thread(has_ended=True, value=6)}
        state.keys = {7: 0x1100, 1: 0}
        parts = [bytes(24) + b"\2", record_of_thread("03 24 01", 0, 8), bytes.fromhex("00110000 07000000"),
                 bytes.fromhex("04 20 02 00 01000000 09000000 07000000 02000000"), record_of_thread("04 40 00", 6, 0), bytes(4),
                 bytes(1 + 2 + 1 + 1), bytes.fromhex("01 02 01000000 00000000 07000000 00110000"), bytes(2), b"\1\0A"]
        self.assertEqual(encode_tables(state, b"A"), b"".join(parts))
        self.assertEqual(encode_tables(decode_tables(b"".join(parts), 1)[0], b"A"), b"".join(parts))

    def test_both_versions_of_one_state(self):
        """They differ by what follows each thread, and by the mark and the keys behind the locks."""
        state = crowd()
        old, new = encode_tables(state, b"ABC", 1), encode_tables(state, b"ABC", 2)
        self.assertEqual(len(new) - len(old), 12 * 4 + 2)
        self.assertEqual((new[-9:-7], new[-7:]), (b"\1\0", old[-7:]))
        read, _ = decode_tables(old, HARTS, 1)
        self.assertEqual((read.has_keys, decode_tables(new, HARTS, 2)[0].has_keys), (False, True))
        for wrong in ((old, 2), (new, 1)):
            self.assertIsNone(decode_tables(wrong[0], HARTS, wrong[1]))

    def test_longest(self):
        state = State()
        values = {key: 1 for key in range(32)}
        state.threads = {number: Thread(pc=4, handlers=16 * [Handler(4, 1)], values=dict(values)) for number in range(1, 65)}
        state.waits = [Wait(number, WaitKind.SLEEP, deadline=1) for number in range(1, 65)]
        state.mutexes = {4 * number: Mutex(1) for number in range(256)}
        state.barriers = {4 * number: 1 for number in range(64)}
        state.locks = {4 * number: ReadWriteLock(0, {reader: 1 for reader in range(1, 65)}) for number in range(64)}
        state.keys, state.input = {key: 4 for key in range(32)}, list(bytes(4096))
        tables = encode_tables(state, bytes(16384))
        self.assertEqual(len(tables), 70820)
        self.assertIsNotNone(decode_tables(tables, 1))

    def test_no_encoding(self):
        """A mark that is neither 0 nor 1, keys out of order or twice, and what ends too early."""
        tables = encode_tables(crowd_with_keys(), b"")
        keys = len(tables) - 4 - 3 * 8
        self.assertEqual(tables[keys - 2:keys], b"\1\3")
        first, rest = tables[keys:keys + 8], tables[keys + 8:]
        wrong = [tables[:keys - 2] + b"\2" + tables[keys - 1:], tables[:keys] + rest[:8] + first + rest[8:], tables[:-1],
                 tables[:keys] + first + first + rest[8:], tables[:24 + 1 + 136 + 16 + 3] + b"\1" + tables[24 + 1 + 136 + 16 + 4:]]
        self.assertIsNotNone(decode_tables(tables, HARTS))
        for data in wrong:
            self.assertIsNone(decode_tables(data, HARTS))

    def test_bytes_of_an_ended_thread(self):
        tables = encode_tables(crowd(), b"")
        behind = tables.index(record_of_thread("0b 40 00", 77, 0)) + 136
        for at_byte in range(behind, behind + 4):
            changed = bytearray(tables)
            changed[at_byte] = 1
            self.assertIsNone(decode_tables(bytes(changed), HARTS))


STAYS = {
    "nothing": both(), "all keys": of(keys={key: 4 for key in range(32)}), "a destructor of 0": put("keys", 0, 0),
    "no keys": both(of(keys={}), at(1, values={}), at(5, values={})), "round 1 at its beginning": at(5, round=1, next_key=0),
    "the last of all rounds": at(5, round=4, next_key=32), "unwinding before its first round": at(5, round=0, next_key=0),
    "a mark that is off": both(of(keys={}, has_keys=False), at(1, values={}), at(5, values={})),
    "a round without keys": both(of(keys={}, has_keys=False), at(1, values={}), at(5, values={}, round=1)),
}
GOES = {
    "key 32": put("keys", 32, 0), "key -1": put("keys", ALL_ONES, 0), "an odd destructor": put("keys", 0, 1),
    "a destructor between words": put("keys", 0, 2), "a value of no key": at(1, values={1: 1}), "a value of 0": at(1, values={0: 0}),
    "a value without its key": without("keys", 3), "keys without the mark": of(has_keys=False),
    "a round of one who doesn't unwind": at(1, round=1), "a next key of one who doesn't": at(1, next_key=1),
    "a next key before the rounds": at(5, round=0, next_key=4), "round 5": at(5, round=5), "next key 33": at(5, next_key=33),
}


class Rules(WithKeys):
    def is_taken(self, change):
        state = crowd_with_keys()
        change(state)
        return decode_tables(encode_tables(state, b""), HARTS) is not None

    def test_changes(self):
        for expected, changes in ((True, STAYS), (False, GOES)):
            for name, change in changes.items():
                with self.subTest(name):
                    self.assertEqual(self.is_taken(change), expected)


class Disks(WithKeys):
    def found(self, disk):
        return recover(MemoryDisk(disk)).machine

    def test_from_version_1(self):
        """It is recovered and checkpointed, and its state has no keys for good; the superblock stays."""
        disk = format_disk(SMALL, image(MAKES_KEY), 1)
        self.assertEqual(struct.unpack("<QQQII", disk[4104:4136]), (1, 0, 0, 170, 1))
        before = bytes(disk[:32])
        self.assertEqual(serve_disk(disk, b"place 0 1\nrun 0 4\ncheckpoint\n")[2], "ack 2")
        self.assertEqual(header_of(MemoryDisk(disk), SMALL, 1).version, 2)
        self.assertEqual(tables_of(MemoryDisk(disk), SMALL, 1)[-6:].hex(), "000000000000")
        machine = self.found(disk)
        self.assertEqual((machine.has_keys, machine.threads[1].registers[10]), (False, Error.ENOSYS))
        self.assertEqual(serve_disk(disk, b"run 0 99\ncheckpoint\n"), ["ok 3 ran 6 end", "ack 3"])
        self.assertEqual((self.found(disk).has_keys, bytes(disk[:32])), (False, before))

    def test_versions(self):
        new = format_disk(SMALL, PUTS_A)
        with switched(keys=False):
            self.assertRaisesRegex(Unrecovered, "Version", recover, MemoryDisk(new))
        for version in (0, 3, 9):
            new[4096 + 36] = version
            self.assertRaisesRegex(Unrecovered, "Version", recover, MemoryDisk(new))
        new[4096 + 36] = 1
        self.assertRaisesRegex(Unrecovered, "Damaged", recover, MemoryDisk(new))

    def test_old_journal(self):
        """What an older program committed is replayed as it was."""
        with switched(keys=False):
            disk = format_disk(SMALL, image(MAKES_KEY))
            serve_disk(disk, RUN)
            status = listing(disk)
        self.assertEqual(listing(disk), status + "keys off\n")

    def test_saved(self):
        """A checkpoint amid the destructors, and the rest after it."""
        disk = format_disk(SMALL, image(SETS_AGAIN))
        self.assertEqual(serve_disk(disk, b"place 0 1\nrun 0 20\ncheckpoint\n")[1], "ok 2 ran 20 on")
        thread = self.found(disk).threads[1]
        self.assertEqual((thread.round, thread.next_key), (2, 1))
        self.assertEqual(serve_disk(disk, b"run 0 99\n"), ["ok 3 ran 14 end"])


class Listings(WithKeys):
    def test_no_keys_yet(self):
        """Which isn't the same as none for good."""
        lines = listing(format_disk(SMALL, b"")).splitlines()
        self.assertEqual(lines[4:], ["thread 1 joinable ready pc 00001000 enabled deferred none handlers 0"])

    def test_lines(self):
        disk = format_disk(SMALL, image(MAKES_KEY))
        serve_disk(disk, b"place 0 1\nrun 0 8\ncommit\n")
        self.assertEqual(listing(disk).splitlines()[4:], [
            "thread 1 joinable ready pc 00001020 enabled deferred none handlers 0", "key 0 00001028", "value 1 0 67"])

    def test_order(self):
        state = crowd_with_keys()
        machine = Machine(16, HARTS, bytes(61440))
        machine.resume(state)
        lines = lines_of_state(0, machine, HARTS)
        self.assertEqual(lines[lines.index("rwlock 00005004 readers 2:1 12:3") + 1:], [
            "key 0 00001100", "key 3 00000000", "key 31 fffffffc", "value 1 0 6", "value 1 31 5", "value 5 3 4294967295"])


class RandomCases(WithKeys):
    def test_both_readings_of_sessions(self):
        """The streams with keys, on disks of either version; each answer of each call comes up."""
        tally, versions = Counter(), set()
        for kind, seeds in (("threads", range(1, 25)), ("calls", [*range(17, 21), *range(38, 42), *range(59, 63)]), ("saved", range(1, 4))):
            for seed in seeds:
                case = case_of(kind, seed)
                disk = case.disk()
                versions.add((kind, case.version))
                for data in case.lives:
                    before = bytearray(disk)
                    life = life_of_model(disk, data, False, tally)
                    self.assertEqual(transcript(before, data), life.replies.decode().splitlines(), (kind, seed))
        self.assertTrue(versions >= {("threads", None), ("threads", 1)})
        for call, answers in (("key_create", ("0", "EINVAL", "EAGAIN")), ("key_delete", ("0", "EINVAL")),
                              ("setspecific", ("0", "EINVAL")), ("getspecific", ("0", "EINVAL"))):
            for answer in answers:
                self.assertGreater(tally[call, answer], 0, (call, answer))
        for number in (1, 2, 3, 4):
            self.assertGreater(tally["destructors", f"run in round {number}"], 0, number)

    def test_off(self):
        """With the switch off no case has a call on keys or an older disk."""
        with switched(keys=False):
            self.assertIsNone(case_of("threads", 1).version)
            self.assertFalse(SWITCHES.keys)
