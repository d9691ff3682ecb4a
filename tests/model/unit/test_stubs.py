"""Answers of a debugger's stub: frames by hand, what threads wait for, registers and memory, and a session made of answers."""
import unittest
from copy import deepcopy

from cases.debugged import NOWHERE, unlike
from model.abi import Call
from model.events import Place, Run, Tick
from model.stubs import (Look, Visits, answers_in, answers_of_thread, frame, is_answered, known_threads, memory_text, monitor, position_text, registers_text,
                         shown_at_first, text_of_thread)
from model.switches import switched
from unit.test_races import call, load, recording_of

LOCK = Call.MUTEX_LOCK
HELD = [*call(LOCK, 0x2000), *call(Call.RWLOCK_WRLOCK, 0x5000), *call(Call.BARRIER_INIT, 0x4000, 2)]
WAITS = [(call(Call.JOIN, 1), "joins thread 1"), (call(LOCK, 0x2000), "waits for mutex 0x2000 of thread 1"),
         (call(Call.MUTEX_TIMEDLOCK, 0x2000, 9, 0), "waits for mutex 0x2000 of thread 1, until 9"),
         ([*call(LOCK, 0x2004), *call(Call.COND_TIMEDWAIT, 0x3000, 0x2004, 8, 0)], "waits at condition 0x3000, until 8"),
         (call(Call.BARRIER_WAIT, 0x4000), "waits at barrier 0x4000"), (call(Call.RWLOCK_RDLOCK, 0x5000), "waits to read 0x5000"),
         (call(Call.RWLOCK_WRLOCK, 0x5000), "waits to write 0x5000"), (call(Call.GETC), "waits for input"),
         (call(Call.SLEEP_UNTIL, 7, 0), "sleeps, until 7")]


class WithKeys(unittest.TestCase):
    def setUp(self):
        switch = switched(keys=True, long_runs=True)
        switch.__enter__()
        self.addCleanup(switch.__exit__, None, None, None)

    def machine_behind(self, *turns, threads=1):
        return recording_of(turns, threads=threads).made_up_to(Visits([], (0, 0)))


class Texts(WithKeys):
    def test_frames(self):
        self.assertEqual(frame("OK"), b"$OK#9a")
        self.assertEqual(frame(monitor("A")), b"$qRcmd,41#" + b"%02x" % (sum(b"qRcmd,41") % 256))
        framed = [frame(payload) for payload in ("O41", "O42", "OK", "", "m1,2")]
        self.assertEqual(answers_in(b"+" + b"+".join(framed)), [("AB", "OK"), ("", ""), ("", "m1,2")])
        self.assertEqual(answers_in(b"$OK#9b"), [("", "$OK#9b")])

    def test_positions(self):
        self.assertEqual([position_text(place) for place in [(7, 0), (7, 1)]], ["7", "7+1"])

    def test_waits(self):
        for words, text in WAITS:
            self.assertEqual(text_of_thread(self.machine_behind((1, HELD), (2, words)), 2), text)
        wait = [*call(LOCK, 0x2000), *call(Call.COND_WAIT, 0x3000, 0x2000)]
        machine = self.machine_behind((2, wait), (1, [*call(LOCK, 0x2000), *call(Call.COND_SIGNAL, 0x3000)]))
        self.assertEqual([text_of_thread(machine, number) for number in (1, 2)], ["on hart 0", "waits again for mutex 0x2000 of thread 1"])

    def test_no_wait(self):
        machine = self.machine_behind((2, load()), (1, load()))
        self.assertEqual([text_of_thread(machine, number) for number in (1, 2)], ["on hart 0", "ready"])

    def test_registers(self):
        machine = self.machine_behind((2, call(Call.SELF)))
        words = registers_text(machine, 2)
        self.assertEqual((len(words), words[8 * 10:8 * 11], words[-8:]), (8 * 33, "02000000", "28100000"))

    def test_none_left(self):
        """Where all have ended thread 1 is told, as ready, with registers of zeros; nothing else is there."""
        machine = self.machine_behind((1, [*call(Call.DETACH, 1), *call(Call.THREAD_EXIT, 0)]), threads=0)
        self.assertEqual(answers_of_thread(machine, 1, 1), [("", "OK"), ("", b"ready".hex()), ("", "OK"), ("", "00" * 132)])
        self.assertEqual(answers_of_thread(machine, 2, 1)[0], ("", "E01"))
        self.assertIn(("", "m1"), Look((0, 0), [], []).told(machine, (0, 0), 1))

    def test_known(self):
        """gdb knows five threads: of these 2 has ended, and 4 and 5 were never made. It meets 6 only once it is there."""
        machine = self.machine_behind((2, call(Call.THREAD_EXIT, 0)), threads=2)
        texts = [answers_of_thread(machine, number, 1, 5)[1][1] for number in range(1, 7)]
        self.assertEqual(texts, [*[text.encode().hex() for text in ("ready", "has ended", "ready", "isn't there", "isn't there")], "E01"])
        self.assertEqual([answers_of_thread(machine, number, 1, 5)[0][1] for number in (5, 6)], ["OK", "E01"])
        for known, told in [(1, "m1,3"), (2, "m1,2,3"), (5, "m1,2,3,4,5"), (200, "m" + ",".join(f"{number:x}" for number in range(1, 65)))]:
            look = Look((0, 0), [], [])
            look.known = known
            self.assertIn(("", told), look.told(machine, (0, 0), 1))

    def test_known_at_first(self):
        """Those that are there where the history begins, and those that are placed."""
        machine = self.machine_behind((2, call(Call.THREAD_EXIT, 0)), threads=2)
        for events, known in [([], 3), ([Place(1, 2), Tick(7)], 3), ([Place(0, 7), Place(1, 5)], 7), ([Run(9, 9)], 3)]:
            self.assertEqual(known_threads(machine, events), known)
        self.assertEqual(known_threads(self.machine_behind((1, [*call(Call.DETACH, 1), *call(Call.THREAD_EXIT, 0)]), threads=0), []), 1)

    def test_memory(self):
        memory = self.machine_behind().memory
        memory.store(0xFFFC, 4, 0x04030201)
        self.assertEqual([memory_text(memory, *read) for read in [(0xFFFC, 4), (0xFFFE, 9), (0x10000, 1), (4095, 9)]],
                         ["01020304", "0304", "E14", "E14"])
        self.assertEqual(len(memory_text(memory, 0x2000, 4000)), 2 * 2048)


class AtFirst(WithKeys):
    """Whom the stop names with which a session begins."""

    def test_thread_1(self):
        """The first one of those that are there, where it isn't; and where none is left."""
        exits = call(Call.THREAD_EXIT, 0)
        for turns, threads, named_there in [([(2, load())], 1, 1), ([(1, exits)], 2, 2), ([(1, exits), (2, exits)], 2, 3),
                                            ([(1, [*call(Call.DETACH, 1), *exits])], 0, 1)]:
            machine = self.machine_behind(*turns, threads=threads)
            for events in ((), [Tick(1), Run(0, 1)], [Run(1, 1)]):
                self.assertEqual(shown_at_first(machine, events), named_there)

    def test_next(self):
        """Thread 3, or 2, whose step is next, whether thread 1 is there or not."""
        for turns, named_there in [([(3, load())], 3), ([(3, load()), (2, load())], 2), ([(1, call(Call.THREAD_EXIT, 0)), (3, load())], 3), ([(1, load())], 1)]:
            self.assertEqual(shown_at_first(self.machine_behind(*turns, threads=2), [Run(0, 1), Tick(1)]), named_there)


class Sessions(WithKeys):
    """Answers that are compared with themselves, and with one of them changed."""

    def setUp(self):
        super().setUp()
        looks = [Look((4, 0), [9], []), Look((3, 1), [1, 2, 9], [(0x1000, 8)]), Look((2, 0), [9, 2], []), Look((4, 0), [9], [])]
        visits = Visits(looks, (0, 4))
        visits.visit((4, 0), recording_of([(2, load())], threads=1).made_up_to(visits), None)
        self.first, self.within, self.between, self.last = visits.answers(1)
        self.machines = [visits.kept[look.position][0] for look in looks]

    def test_by_hand(self):
        self.assertEqual(self.within[:2], [("event 3+1, from 0 to 4\n", "OK"), ("", "T05thread:2;")])
        self.assertEqual(self.within[2], ("event 3+1, from 0 to 4\n", "OK"))
        self.assertEqual(self.within[3][0].splitlines()[:4], ["events 3", "clock 0", "status running", "hart 0 2"])
        self.assertEqual(self.within[4], ("", "m1,2"))
        self.assertEqual([answer[1] for answer in self.within[5:7]], ["OK", b"ready".hex()])
        self.assertEqual(self.within[13:16], [("", "E01")] * 3)
        self.assertEqual((len(self.within), self.last[2]), (18, ("event 4, from 0 to 4\n", "OK")))

    def test_stops(self):
        """Where nobody's step is next the thread of the stop before is named; of the first of them it is that of the session's begin."""
        self.assertEqual([answers[1][1] for answers in (self.first, self.between, self.last)], ["T05thread:1;", "T05thread:2;", "T05thread:2;"])
        self.assertEqual(Look((0, 0), [], []).answers(self.machines[0], (0, 4), 10)[1], ("", "T05thread:a;"))

    def test_examined(self):
        """Whom the stop names, and then whom gdb has named, if that one is there."""
        registers = [("", registers_text(self.machines[1], number)) for number in (1, 2)]
        self.assertEqual(self.within[8:17:4], [registers[0], registers[1], registers[1]])
        self.assertEqual((self.first[8], self.between[8], self.last[8]), tuple(("", registers_text(self.machines[place], number))
                                                                              for place, number in [(0, 1), (2, 2), (3, 2)]))

    def test_each_change(self):
        answers = [*self.first, *self.within, *self.last]
        packets = [str(number) for number in range(len(answers))]
        self.assertIsNone(unlike(packets, answers, deepcopy(answers)))
        for number, (_, payload) in enumerate(answers):
            for told in [("", "E02"), ("told", payload)]:
                changed = deepcopy(answers)
                changed[number] = told
                self.assertIsNotNone(unlike(packets, answers, changed), number)

    def test_answered(self):
        for expected, got, is_right in [((None, "OK"), ("a", "OK"), True), (("", "OK"), ("a", "OK"), False),
                                        ((None, "OK"), ("a", "E01"), False), (("", "OK"), ("", "OKAY"), False), (("", ""), ("", "OK"), False),
                                        (("", "T05thread:"), ("", "T05thread:7;"), False), (("", "T05thread:1;"), ("", "T05thread:12;"), False),
                                        (("", "T05thread:1;"), ("", "T05thread:1;"), True)]:
            self.assertEqual(is_answered(expected, got), is_right, (expected, got))

    def test_places(self):
        """Before each step, and before an event that is no run."""
        visits = recording_of([(2, load())], threads=1).show(Visits([Look((3, 2), [2], []), Look((2, 0), [], [])], (0, 4)))
        within, before = visits.answers(1)
        self.assertEqual([answers[2][0].split(",")[0] for answers in (within, before)], ["event 3+2", "event 2"])
        self.assertEqual((within[-1][1][8 * 3:8 * 4], within[-1][1][-8:]), ("00280000", "28100000"))
        self.assertEqual([visits.kept[place][1] for place in [(3, 2), (2, 0)]], [2, None])
        self.assertEqual(visits.steps, {0: 1, 1: 7, 2: 1, 3: 3})

    def test_nowhere(self):
        """It is told, and where the session stands."""
        told = NOWHERE + "event 7, from 0 to 9\n", "OK"
        self.assertIsNone(unlike(["goto"], [told], [told]))
        for wrong in ([told] * 2, [(NOWHERE, "OK")], [("event 7, from 0 to 9\n", "OK")], []):
            self.assertIsNotNone(unlike(["goto"], [told], wrong))
