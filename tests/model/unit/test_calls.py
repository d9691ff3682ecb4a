"""The worked examples of guest calls and of a few instructions, on the model."""
import unittest

from model.abi import ALL_ONES, RETURN_GATE, UNWIND_GATE, Call, Error
from model.calls import BLOCKED, CALLS, MOVED, perform
from model.layout import format_disk
from model.lines import serve_disk
from model.listing import listing
from model.machine import Machine
from model.threads import new_thread
from unit.test_rows import SMALL, image

C, M = 0x3000, 0x2000


class Calls(unittest.TestCase):
    def setUp(self):
        """Four threads, all ready."""
        self.machine = Machine(16, 8, bytes(61440))
        for number in (2, 3, 4):
            self.machine.threads[number] = new_thread(0x1000, 0, 0, False)

    def call(self, number, caller, *arguments):
        """The answer."""
        row = CALLS[number]
        return row.function(self.machine, caller, *(tuple(arguments) + (0, 0, 0, 0))[:row.arguments])

    def performed(self, number, caller, *arguments):
        """x10 behind the ECALL."""
        registers = self.machine.threads[caller].registers
        registers[17], registers[10:10 + len(arguments)] = number, arguments
        perform(self.machine, caller)
        return self.machine.threads[caller].registers[10]

    def x10(self, number):
        return self.machine.threads[number].registers[10]

    def owner(self, mutex):
        return self.machine.mutexes[mutex].owner


class Mutexes(Calls):
    def test_kinds(self):
        rows = [(Call.MUTEX_INIT, 1, M, 2, 0), (Call.MUTEX_LOCK, 1, M, 0), (Call.MUTEX_LOCK, 1, M, 35),
                (Call.MUTEX_INIT, 1, M + 16, 1, 0), (Call.MUTEX_LOCK, 1, M + 16, 0), (Call.MUTEX_LOCK, 1, M + 16, 0),
                (Call.MUTEX_UNLOCK, 1, M + 16, 0), (Call.MUTEX_TRYLOCK, 2, M + 16, 16), (Call.MUTEX_UNLOCK, 2, M + 16, 1),
                (Call.MUTEX_LOCK, 1, M + 32, 0), (Call.MUTEX_LOCK, 1, M + 32, BLOCKED), (Call.MUTEX_UNLOCK, 2, M + 32, 1)]
        for *call, answer in rows:
            self.assertEqual(self.call(*call), answer)

    def test_full(self):
        for index in range(256):
            self.assertEqual(self.call(Call.MUTEX_LOCK, 1, M + 4 * index), 0)
        self.assertEqual([self.call(Call.MUTEX_LOCK, 1, 0x2400), self.call(Call.MUTEX_UNLOCK, 1, M), self.call(Call.MUTEX_LOCK, 1, 0x2400)],
                         [11, 0, 0])
        self.assertEqual(self.call(Call.COND_WAIT, 1, 0x5000, 0x2004), BLOCKED)
        self.assertEqual([self.call(Call.MUTEX_LOCK, 2, M), self.call(Call.MUTEX_LOCK, 2, 0x2004)], [11, 0])

    def test_handed_over(self):
        self.assertEqual([self.call(Call.MUTEX_LOCK, number, M) for number in (1, 2, 3)], [0, BLOCKED, BLOCKED])
        self.assertEqual([self.call(Call.MUTEX_DESTROY, 1, M), self.call(Call.MUTEX_UNLOCK, 1, M)], [16, 0])
        self.assertEqual((self.owner(M), self.machine.is_ready(2), self.x10(2)), (2, True, 0))
        self.assertEqual([self.call(Call.MUTEX_TRYLOCK, 1, M), self.call(Call.MUTEX_UNLOCK, 2, M), self.owner(M)], [16, 0, 3])
        self.assertEqual([self.call(Call.MUTEX_UNLOCK, 3, M), self.call(Call.MUTEX_UNLOCK, 3, M)], [0, 1])

    def test_timed(self):
        self.call(Call.MUTEX_LOCK, 2, M)
        self.machine.clock = 5
        for moment, answer in (((0, 1 << 31), 22), ((5, 0), 110), ((6, 0), BLOCKED)):
            self.assertEqual(self.call(Call.MUTEX_TIMEDLOCK, 1, M, *moment), answer)
        self.assertEqual((self.machine.tick(1), self.x10(1), self.owner(M)), (1, 110, 2))


class Conditions(Calls):
    def test_signal_then_cancel(self):
        """A signal isn't lost to a cancellation that comes behind it."""
        self.call(Call.MUTEX_LOCK, 1, M)
        self.assertEqual(self.call(Call.COND_WAIT, 1, C, M), BLOCKED)
        self.call(Call.MUTEX_LOCK, 2, M)
        self.assertEqual([self.call(Call.COND_SIGNAL, 2, C), self.call(Call.CANCEL, 2, 1)], [0, 0])
        self.assertFalse(self.machine.is_ready(1))
        self.assertEqual(self.call(Call.MUTEX_UNLOCK, 2, M), 0)
        thread = self.machine.threads[1]
        self.assertEqual((self.machine.is_ready(1), self.owner(M), self.x10(1), thread.is_request_pending), (True, 1, 0, True))

    def test_cancelled_waiter(self):
        """It consumes no signal, and gets its mutex back before its handler runs."""
        for number in (1, 3):
            self.call(Call.MUTEX_LOCK, number, M)
            self.call(Call.CLEANUP_PUSH, number, 0x1100, 7)
            self.call(Call.COND_WAIT, number, C, M)
        self.call(Call.MUTEX_LOCK, 2, M)
        self.call(Call.CANCEL, 2, 1)
        thread = self.machine.threads[1]
        self.assertEqual((self.machine.is_ready(1), thread.is_unwinding, thread.pc), (False, True, 0x1000))
        self.call(Call.COND_SIGNAL, 2, C)
        self.call(Call.MUTEX_UNLOCK, 2, M)
        self.assertEqual((self.owner(M), thread.pc, self.x10(1), thread.registers[1]), (1, 0x1100, 7, UNWIND_GATE))
        self.call(Call.MUTEX_UNLOCK, 1, M)
        self.assertEqual((self.owner(M), self.x10(3), self.machine.is_ready(3)), (3, 0, True))

    def test_signal(self):
        """The longest waiting thread goes on, and takes a free mutex at once."""
        for number in (3, 1):
            self.call(Call.MUTEX_LOCK, number, M)
            self.call(Call.COND_WAIT, number, C, M)
        self.assertEqual(self.call(Call.COND_SIGNAL, 2, C), 0)
        self.assertEqual((self.owner(M), self.machine.is_ready(3), self.machine.is_ready(1)), (3, True, False))

    def test_order_of_ticks(self):
        for number, moment in ((2, 7), (1, 7), (4, 6)):
            self.assertEqual(self.call(Call.MUTEX_LOCK, number, M), 0)
            self.assertEqual(self.call(Call.COND_TIMEDWAIT, number, C, M, moment, 0), BLOCKED)
        self.assertEqual(self.call(Call.MUTEX_LOCK, 3, M), 0)
        self.assertEqual(self.machine.tick(7), 3)
        for number, following in ((3, 4), (4, 1), (1, 2)):
            self.assertEqual(self.call(Call.MUTEX_UNLOCK, number, M), 0)
            self.assertEqual((self.owner(M), self.x10(following)), (following, 110))

    def test_refusals(self):
        self.assertEqual(self.call(Call.COND_WAIT, 1, C, M), 1)
        self.call(Call.MUTEX_LOCK, 1, M)
        self.call(Call.COND_WAIT, 1, C, M)
        self.call(Call.MUTEX_LOCK, 2, M + 4)
        self.assertEqual([self.call(Call.COND_WAIT, 2, C, M + 4), self.call(Call.COND_DESTROY, 2, C)], [22, 16])
        self.assertEqual(self.call(Call.COND_TIMEDWAIT, 3, C, M, 0, 1 << 31), 22)


class Barriers(Calls):
    def test_rows(self):
        self.assertEqual([self.call(Call.BARRIER_INIT, 1, C, 1), self.call(Call.BARRIER_WAIT, 1, C)], [0, ALL_ONES])
        self.assertEqual(self.call(Call.BARRIER_INIT, 1, C, 3), 0)
        self.assertEqual([self.call(Call.BARRIER_WAIT, number, C) for number in (1, 2, 3)], [BLOCKED, BLOCKED, ALL_ONES])
        self.assertEqual([(self.machine.is_ready(number), self.x10(number)) for number in (1, 2)], 2 * [(True, 0)])
        self.assertEqual([self.call(Call.BARRIER_INIT, 1, C, 0), self.call(Call.BARRIER_DESTROY, 1, C), self.call(Call.BARRIER_WAIT, 1, C)],
                         [22, 0, 22])


class Locks(Calls):
    def test_order(self):
        lock = self.machine.locks
        rows = [(Call.RWLOCK_RDLOCK, 1, 0), (Call.RWLOCK_WRLOCK, 2, BLOCKED), (Call.RWLOCK_RDLOCK, 1, 0),
                (Call.RWLOCK_RDLOCK, 3, BLOCKED), (Call.RWLOCK_UNLOCK, 1, 0), (Call.RWLOCK_UNLOCK, 1, 0)]
        for call, caller, answer in rows:
            self.assertEqual(self.call(call, caller, M), answer)
        self.assertEqual((lock[M].writer, self.machine.is_ready(3)), (2, False))
        self.assertEqual(self.call(Call.RWLOCK_UNLOCK, 2, M), 0)
        self.assertEqual((lock[M].writer, lock[M].readers), (0, {3: 1}))

    def test_writer_waits_for_the_last_reader(self):
        for call, caller, answer in ((Call.RWLOCK_RDLOCK, 1, 0), (Call.RWLOCK_RDLOCK, 3, 0), (Call.RWLOCK_WRLOCK, 2, BLOCKED),
                                     (Call.RWLOCK_UNLOCK, 1, 0)):
            self.assertEqual(self.call(call, caller, M), answer)
        self.assertFalse(self.machine.is_ready(2))

    def test_refusals(self):
        rows = [(Call.RWLOCK_RDLOCK, 1, 0), (Call.RWLOCK_WRLOCK, 2, BLOCKED), (Call.RWLOCK_TRYRDLOCK, 3, 16),
                (Call.RWLOCK_TRYRDLOCK, 1, 0), (Call.RWLOCK_WRLOCK, 1, 35), (Call.RWLOCK_UNLOCK, 3, 1), (Call.RWLOCK_INIT, 4, 16)]
        for call, caller, answer in rows:
            self.assertEqual(self.call(call, caller, M), answer)


class Cancellation(Calls):
    def test_handlers(self):
        for call, *arguments in ((Call.SETCANCELSTATE, 1), (Call.CLEANUP_PUSH, 0x1100, 7), (Call.CLEANUP_PUSH, 0x1200, 9)):
            self.assertEqual(self.performed(call, 2, *arguments), 0)
        self.assertEqual([self.performed(Call.CANCEL, 1, 2), self.performed(Call.TESTCANCEL, 2), self.performed(Call.SETCANCELSTATE, 2, 0)],
                         [0, 0, 0])
        thread = self.machine.threads[2]
        self.performed(Call.TESTCANCEL, 2)
        self.assertEqual((thread.pc, thread.registers[10], thread.registers[1]), (0x1200, 9, UNWIND_GATE))
        self.machine.next_handler(2)
        self.assertEqual((thread.pc, thread.registers[10]), (0x1100, 7))
        self.machine.next_handler(2)
        self.assertTrue(self.machine.threads[2].has_ended)
        self.assertEqual((self.performed(Call.JOIN, 1, 2), self.machine.threads[1].registers[11]), (0, ALL_ONES))

    def test_popped(self):
        """A handler that pop runs returns behind the call, whether or not the thread unwinds."""
        self.assertEqual(self.performed(Call.CLEANUP_POP, 1, 1), Error.EINVAL)
        self.performed(Call.CLEANUP_PUSH, 1, 0x1200, 9)
        thread = self.machine.threads[1]
        thread.pc = 0x1044
        self.assertEqual(self.call(Call.CLEANUP_POP, 1, 2), MOVED)
        self.assertEqual((thread.pc, thread.registers[1], thread.registers[10]), (0x1200, 0x1044, 9))

    def test_asynchronous(self):
        words = "00100513 03f00893 00000073 00100513 03c00893 00000073 0000006f"
        for guest, replies, status in ((words, "ok 2 ran 7 end", "status exit 0"),
                                       (words.replace("03f00893", "00e00893"), "ok 2 ran 99 on", "status running")):
            disk = format_disk(SMALL, image(guest))
            self.assertEqual(serve_disk(disk, b"place 0 1\nrun 0 99\ncommit\n")[1], replies)
            self.assertIn(status, listing(disk))


class Threads(Calls):
    def test_least_free_id(self):
        self.machine.end_thread(2)
        self.call(Call.JOIN, 1, 2)
        self.assertEqual((self.call(Call.CREATE, 1, 0x1000), self.machine.threads[1].registers[11]), (0, 2))
        self.assertEqual(self.machine.threads[2].registers[1], RETURN_GATE)

    def test_joins(self):
        rows = [(1, 1, 35), (1, 9, 3), (1, 2, BLOCKED), (3, 2, 22)]
        for caller, target, answer in rows:
            self.assertEqual(self.call(Call.JOIN, caller, target), answer)
        self.assertEqual(self.call(Call.DETACH, 3, 2), 22)
        self.machine.threads[2].value = 5
        self.machine.end_thread(2)
        self.assertEqual((self.x10(1), self.machine.threads[1].registers[11], 2 in self.machine.threads), (0, 5, False))

    def test_input(self):
        self.assertEqual([self.call(Call.GETC, number) for number in (2, 1)], [BLOCKED, BLOCKED])
        self.machine.feed(b"ABC")
        self.assertEqual((self.x10(2), self.x10(1), self.machine.input), (65, 66, [67]))

    def test_planned(self):
        self.machine.harts[0] = 2
        self.assertEqual(self.machine.planned(0), 3)
        self.machine.harts[:2] = [4, 3]
        self.assertEqual(self.machine.planned(0), 1)
        self.assertIsNone(self.machine.planned(8))


class Instructions(unittest.TestCase):
    def after(self, words, steps):
        """Registers behind so many steps, and the faulted status."""
        machine = Machine(16, 1, image(words).ljust(61440, b"\0"))
        machine.harts[0] = 1
        machine.run(0, steps)
        return machine.threads[1].registers, machine.threads[1].pc, machine.fault_cause

    def test_unsigned_comparison(self):
        self.assertEqual(self.after("fff03513", 1)[0][10], 1)

    def test_jump_clears_bit_0(self):
        """jalr to an odd place, and the link behind a jump by its own register."""
        registers, pc, _ = self.after("000010b7 00d080e7", 2)
        self.assertEqual((pc, registers[1]), (0x100C, 0x1008))

    def test_faults(self):
        rows = [("00001363", 0), ("00002503", 5), ("00102503", 4), ("00002023", 7), ("000020a3", 6), ("00100073", 8), ("ffffffff", 2),
                ("0020006f", 3), ("00002003", 5), ("ff400067", 9)]
        for words, cause in rows:
            self.assertEqual(self.after(words, 2 if cause == 9 else 1)[2], cause, words)

    def test_arithmetic(self):
        """Minus one shifted and compared: kept sign, no sign, less than 0."""
        registers, _, _ = self.after("fff00513 40455593 00455613 000526b3 41f00733 00153793", 6)
        self.assertEqual(registers[10:14], [ALL_ONES, ALL_ONES, 0x0FFFFFFF, 1])

    def test_bytes(self):
        """A byte that is stored changes that byte alone, and is loaded with and without its sign."""
        registers, _, _ = self.after("000022b7 fff00313 0062a023 f8000393 007280a3 0002a503 00128583 0012c603 00229683", 9)
        self.assertEqual(registers[10:14], [0xFFFF80FF, 0xFFFFFF80, 0x80, ALL_ONES])
