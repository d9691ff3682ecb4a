"""Motions of a debugging session over small runs by hand."""
import unittest
from random import Random
from types import SimpleNamespace
from unittest.mock import patch

from cases.moved import MovedCase, ender_of, expected_motions, moved_case, packets_of, place_at_first, steps_of, told_at, words_at_first
from cases.stepped import Way, stepped_case
from model.abi import Call
from model.assembler import STOP, image_of
from model.devices import MemoryDisk
from model.layout import format_disk
from model.lines import serve_disk
from model.motions import (BEGIN, END, Stops, backward, before_end, end_of_steps, named, named_instead, next_step, onward, own_step, stepped,
                           stepped_back, text_of_stop, thread_of_stop, threads_at, who_ended)
from model.stretches import Recording
from model.stubs import monitor
from model.switches import switched
from model.threads import Status
from unit.test_begun import of_two_areas
from unit.test_call_lines import LED, TwoAreas
from unit.test_races import call, load, recording_of, store
from unit.test_rows import SMALL, STORES_ZERO

FIRST, LAST = (0, 0), (9, 0)
CREATES = call(Call.CREATE, 0x1100, 7, 0, 0)  # seven words
CHANGES = bytes.fromhex("13000000 b7220000 23a05200")


def with_second(words):
    """An image with the words of thread 1, and four of the thread that CREATES makes."""
    return image_of(words).ljust(256, b"\0") + 4 * bytes.fromhex("13000000")


def run_of(words, *lines):
    disk = format_disk(SMALL, words)
    serve_disk(disk, "\n".join([*lines, "commit", ""]).encode())
    return steps_of(Recording(disk))


class Motions(unittest.TestCase):
    """The third step stores at 0x2000 and changes one byte there; the fourth is no instruction."""

    def setUp(self):
        switch = switched(keys=True, long_runs=True)
        switch.__enter__()
        self.addCleanup(switch.__exit__, None, None, None)
        self.zeros = run_of(STORES_ZERO, "place 0 1", "run 0 1", "run 0 1", "run 0 9")
        self.steps = run_of(CHANGES, "place 0 1", "run 0 2", "run 0 9")

    def test_steps(self):
        self.assertEqual([(step.before, step.behind, step.place) for step in self.zeros],
                         [((1, 0), (2, 0), 0x1000), ((2, 0), (3, 0), 0x1004), ((3, 0), (4, 0), 0x1008)])
        self.assertEqual([(step.before, step.behind) for step in self.steps],
                         [((1, 0), (1, 1)), ((1, 1), (2, 0)), ((2, 0), (2, 1)), ((2, 1), (3, 0))])
        self.assertEqual([sorted(step.changed) for step in self.zeros], [[], [], []])
        self.assertEqual([sorted(step.changed) for step in self.steps], [[], [], [0x2001], []])
        self.assertEqual([step.fault for step in self.steps], [0, 0, 0, 2])
        self.assertEqual([sorted(step.stored) for step in self.steps], [[], [], [0x2000, 0x2001, 0x2002, 0x2003], []])

    def test_loads(self):
        """A word, a halfword that goes nowhere, and a word that isn't aligned, which faults."""
        steps = run_of(bytes.fromhex("b7220000 03a30200 03d02200 03a31200"), "place 0 1", "run 0 9")
        self.assertEqual([sorted(step.loaded) for step in steps], [[], [0x2000, 0x2001, 0x2002, 0x2003], [0x2002, 0x2003], []])
        self.assertEqual([len(step.stored | step.changed) for step in steps], [0] * 4)
        self.assertEqual([step.fault for step in steps[:3]] + [steps[3].fault > 0], [0, 0, 0, True])

    def test_breakpoints(self):
        stops = Stops([0x1004], [])
        self.assertEqual(onward(self.steps, stops, (0, 0), LAST), ((1, 1), "T05thread:1;"))
        self.assertEqual(onward(self.steps, stops, (1, 0), LAST), ((1, 1), "T05thread:1;"))
        self.assertEqual(onward(self.steps, stops, (1, 1), LAST), ((3, 0), "T04thread:1;"))
        self.assertEqual(onward(self.steps, stops, (2, 1), LAST), ((3, 0), "T04thread:1;"))
        self.assertEqual(onward(self.steps, stops, (3, 0), LAST), (LAST, END))
        self.assertEqual(backward(self.steps, stops, (3, 0), FIRST), ((1, 1), "T05thread:1;"))
        self.assertEqual(backward(self.steps, stops, (1, 1), FIRST), (FIRST, BEGIN))
        self.assertEqual(backward(self.steps, Stops([0x1000, 0x1004], []), (3, 0), FIRST), ((1, 1), "T05thread:1;"))

    def test_watches(self):
        """Onward a session stands before the change, and back behind it; it stays there."""
        stops = Stops([], [(0x2000, 2)])
        told = "T05watch:2000;thread:1;"
        for place in [(0, 0), (1, 1), (2, 0)]:
            self.assertEqual(onward(self.steps, stops, place, LAST), ((2, 0), told))
        for place in [(3, 0), (2, 1)]:
            self.assertEqual(backward(self.steps, stops, place, FIRST), ((2, 1), told))
        self.assertEqual(backward(self.steps, stops, (2, 0), FIRST), (FIRST, BEGIN))
        for watch in [(0x2000, 1), (0x2002, 4)]:
            self.assertEqual(backward(self.steps, Stops([], [watch]), (3, 0), FIRST), (FIRST, BEGIN))

    def test_watches_of_loads_and_accesses(self):
        """A load meets what is watched for loads and for accesses, and a store that changes nothing what is watched for accesses alone."""
        load, store = self.steps[1], self.steps[2]
        load.loaded, store.stored, store.changed = frozenset([0x2002, 0x2003]), frozenset([0x2000, 0x2001]), frozenset()
        for watch, place, told in [
                ((0x2003, 4, 3), load, "T05rwatch:2003;"), ((0x2000, 3, 3), load, "T05rwatch:2000;"), ((0x2002, 2, 4), load, "T05awatch:2002;"),
                ((0x2001, 1, 4), store, "T05awatch:2001;"), ((0x1FFD, 4, 4), store, "T05awatch:1ffd;")]:
            stops, told = Stops([], [watch]), told + "thread:1;"
            self.assertEqual(onward(self.steps, stops, (0, 0), LAST), (place.before, told))
            self.assertEqual(stepped(self.steps, stops, place.before, LAST, 1), (place.before, told))
            self.assertEqual(backward(self.steps, stops, (3, 0), FIRST), (place.behind, told))
        for watch in [(0x2000, 2, 3), (0x2000, 4, 2), (0x2004, 4, 3), (0x2004, 4, 4), (0x1FFC, 4, 4)]:
            self.assertEqual(backward(self.steps, Stops([], [watch]), (3, 0), FIRST), (FIRST, BEGIN))
        for first in (3, 4):
            stops = Stops([], [(0x2002, 1, first), (0x2002, 1, 7 - first)])
            self.assertEqual(onward(self.steps, stops, (0, 0), LAST)[1], {3: "T05rwatch", 4: "T05awatch"}[first] + ":2002;thread:1;")
        self.assertEqual(Stops([], [(0x2000, 4), (0x2000, 4, 3), (0x2001, 2, 4)]).packets(), ["Z2,2000,4", "Z3,2000,4", "Z4,2001,2"])

    def test_breakpoint_and_change(self):
        """Of a step that changes what is watched at a breakpoint: that is told first, and the change when it is asked again, and going back."""
        stops, change = Stops([0x1008], [(0x2000, 4)]), "T05watch:2000;thread:1;"
        for place in [(0, 0), (1, 1)]:
            self.assertEqual(onward(self.steps, stops, place, LAST), ((2, 0), "T05thread:1;"))
        self.assertEqual(onward(self.steps, stops, (2, 0), LAST), ((2, 0), change))
        for place in [(3, 0), (2, 1)]:
            self.assertEqual(backward(self.steps, stops, place, FIRST), ((2, 1), change))
        self.assertEqual(backward(self.steps, stops, (2, 0), FIRST), (FIRST, BEGIN))

    def test_step_to_breakpoint_and_change(self):
        """A breakpoint of another is told first, and a change there when it is asked again. Of an own step the change is told."""
        stops, change = Stops([0x1008], [(0x2000, 4)]), "T05watch:2000;thread:1;"
        for place in [(1, 0), (1, 1)]:
            self.assertEqual(stepped(self.steps, stops, place, LAST, 2), ((2, 0), "T05thread:1;"))
        self.assertEqual(stepped(self.steps, stops, (2, 0), LAST, 2), ((2, 0), change))
        own = self.hand_over(0x2001)
        self.assertEqual(stepped(own, stops, (1, 0), LAST, 2), ((2, 0), "T05watch:2000;thread:2;"))
        self.assertEqual(stepped(own, stops, (1, 0), LAST, 1), ((1, 1), "T05thread:1;"))
        self.assertEqual(stepped(own, stops, (1, 1), LAST, 1), ((2, 0), "T05thread:1;"))
        self.assertEqual(stepped(own, stops, (2, 0), LAST, 1), ((2, 0), "T05watch:2000;thread:2;"))
        self.assertEqual(stepped(own, Stops([0x1008], [(0x2000, 1)]), (1, 0), LAST, 2), ((2, 1), "T05thread:2;"))

    def hand_over(self, address):
        """The third step is one of thread 2, and changes a byte."""
        step = self.steps[2]
        step.thread, step.changed, step.there, step.left = 2, frozenset([address]), frozenset([1, 2]), frozenset([1, 2])
        return self.steps

    def test_change_before_a_breakpoint(self):
        """The step behind the change is at a breakpoint, and another's: the change is told, with whose it was, and so it is to who steps back."""
        steps, stops = self.hand_over(0x2001), Stops([0x100C], [(0x2000, 4)])
        change = (2, 1), "T05watch:2000;thread:2;"
        self.assertEqual(onward(steps, stops, (0, 0), LAST), ((2, 0), change[1]))
        self.assertEqual(onward(steps, stops, (2, 1), LAST), ((3, 0), "T04thread:1;"))
        for place in [(3, 0), (2, 1)]:
            self.assertEqual(backward(steps, stops, place, FIRST), change)
            self.assertEqual([stepped_back(steps, stops, place, FIRST, thread) for thread in (1, 2)], [change] * 2)
        self.assertEqual(stepped_back(steps, Stops([], [(0x2000, 4)]), (3, 0), FIRST, 1), change)
        self.assertEqual(backward(steps, Stops([0x100C], [(0x2000, 1)]), (3, 0), FIRST), ((2, 1), "T05thread:1;"))

    def test_several_watches(self):
        """Of those under which a step changes a byte the one that was inserted first is told."""
        for watches, first in [([(0x2001, 1), (0x2000, 4)], "2001"), ([(0x2000, 4), (0x2001, 1)], "2000"), ([(0x2000, 1), (0x1FFF, 3), (0x2001, 2)], "1fff")]:
            stops, told = Stops([], watches), f"T05watch:{first};thread:1;"
            self.assertEqual(onward(self.steps, stops, (0, 0), LAST), ((2, 0), told))
            self.assertEqual(stepped(self.steps, stops, (2, 0), LAST, 1), ((2, 0), told))
            self.assertEqual(backward(self.steps, stops, (3, 0), FIRST), ((2, 1), told))
            for place in [(3, 0), (2, 1)]:
                self.assertEqual(stepped_back(self.steps, stops, place, FIRST, 1), ((2, 1), told))

    def test_threads(self):
        steps = steps_of(recording_of([(2, load()), (1, call(Call.SELF))], threads=1))
        self.assertEqual(onward(steps, Stops([0x1028], []), (0, 0), LAST), ((3, 0), "T05thread:2;"))

    def test_steps_of_a_thread(self):
        """Thread 1 creates thread 2 in event 1, which makes three steps in event 3; then it goes on in event 5."""
        steps = steps_of(recording_of([(2, store()), (1, [*call(Call.SELF), *call(Call.SELF)])], threads=1))
        none, last = Stops([], []), (6, 0)
        self.assertEqual([(step.before, step.thread) for step in steps if step.before[0] == 3], [((3, 0), 2), ((3, 1), 2), ((3, 2), 2)])
        self.assertEqual(stepped(steps, none, (3, 0), last, 2), ((3, 1), "T05thread:2;"))
        self.assertEqual(stepped(steps, none, (3, 2), last, 2), ((4, 0), "T05thread:2;"))
        self.assertEqual(stepped(steps, none, (2, 0), last, 1), ((5, 1), "T05thread:1;"))
        self.assertEqual(stepped(steps, none, (4, 0), last, 2), (last, END))
        self.assertEqual(stepped_back(steps, none, (3, 2), FIRST, 2), ((3, 1), "T05thread:2;"))
        self.assertEqual(stepped_back(steps, none, (5, 0), FIRST, 2), ((3, 2), "T05thread:2;"))
        created = max(step.before for step in steps if step.before[0] == 1)
        self.assertEqual(stepped_back(steps, none, (5, 0), FIRST, 1), (created, "T05thread:1;"))
        self.assertEqual(stepped_back(steps, none, (3, 0), FIRST, 2), (FIRST, BEGIN))

    def test_steps_with_stops(self):
        """Breakpoints are those of others, and none is where the motion begins; watches are also the thread's own."""
        steps = steps_of(recording_of([(2, store()), (1, call(Call.SELF))], threads=1))
        places, last = [step.place for step in steps if step.thread == 2], (6, 0)
        for place, came in [((2, 0), (3, 0)), ((3, 0), (5, 1))]:
            self.assertEqual(stepped(steps, Stops(places[:1], []), place, last, 1)[0], came)
        self.assertEqual(stepped(steps, Stops(places, []), (2, 0), last, 2), ((3, 1), "T05thread:2;"))
        self.assertEqual(stepped(steps, Stops(places[1:2], []), (2, 0), last, 1), ((3, 1), "T05thread:2;"))
        self.assertEqual(stepped_back(steps, Stops(places[1:2], []), (5, 0), FIRST, 1), ((3, 1), "T05thread:2;"))
        self.assertEqual(stepped_back(steps, Stops(places[1:2], []), (5, 0), FIRST, 2), ((3, 2), "T05thread:2;"))
        changing = next(step for step in steps if step.before == (3, 1))
        changing.changed = frozenset([0x2801])
        watch, told = Stops([], [(0x2800, 4)]), "T05watch:2800;thread:2;"
        for place, thread in [((2, 0), 1), (changing.before, 1), (changing.before, 2)]:
            self.assertEqual(stepped(steps, watch, place, last, thread), (changing.before, told))
        for thread in (1, 2):
            self.assertEqual(stepped_back(steps, watch, (5, 0), FIRST, thread), (changing.behind, told))
        for thread in (1, 2):
            self.assertEqual(stepped_back(steps, watch, changing.behind, FIRST, thread), (changing.behind, told))
        self.assertEqual(stepped_back(steps, watch, changing.before, FIRST, 2), ((3, 0), "T05thread:2;"))

    def test_last_steps(self):
        """Of a fault its signal is told; a thread that isn't there behind its step may not be named."""
        none = Stops([], [])
        self.assertEqual(stepped(self.steps, none, (2, 1), LAST, 1), ((3, 0), "T04thread:1;"))
        self.assertEqual(stepped(self.steps, none, (2, 1), LAST, 9), ((3, 0), "T04thread:1;"))
        ended = steps_of(recording_of([(2, call(Call.THREAD_EXIT, 0))], threads=1))
        last = ended[-1]
        self.assertEqual((sorted(last.there), sorted(last.left)), ([1, 2], [1]))
        self.assertEqual(stepped(ended, none, last.before, LAST, 2), (last.behind, "T05thread:1;"))

    def test_ender(self):
        """After the end of a program a motion on names the thread that ended it; where it goes on, the one of the stop before."""
        for last, by in ((Call.EXIT, 2), (Call.SELF, None)):
            recording = recording_of([(2, call(last, 0))], threads=1)
            expected = expected_motions(MovedCase(b"", Stops([], []), [(None, ["vCont;c", "bc", "vCont;c"])]), recording)
            self.assertEqual((ender_of(recording), [answer for _, answer in expected[1:6:2]]),
                             (by, [f"T05replaylog:end;thread:{by or 1};", "T05replaylog:begin;thread:1;", f"T05replaylog:end;thread:{by or 1};"]))
            way = Way(Random(1), recording, steps_of(recording), Stops([], []))
            self.assertEqual(way.motion("step", 9)[1], f"T05replaylog:end;thread:{by or 1};")

    def test_ender_of_a_fault(self):
        """It is the thread of the fault, also where its step isn't recorded. Without a step nobody is known to have made the program exit."""
        steps = [SimpleNamespace(thread=3)]
        for status, known, wanted in [(Status.FAULTED, [], 8), (Status.FAULTED, steps, 8), (Status.EXITED, [], None), (Status.EXITED, steps, 3),
                                      (Status.RUNNING, steps, None)]:
            self.assertEqual(who_ended(SimpleNamespace(status=status, fault_thread=8), known), wanted)

    def test_before_end(self):
        """Who ended a program is named at the end of its history alone, and where somebody is known."""
        self.assertEqual([before_end(*asked) for asked in ((END, 2, 1), (END, None, 1), (BEGIN, 2, 1))], [2, 1, 1])

    def test_limits(self):
        """Of events with 3, 0, 2 and 5 steps from event 1 on; one without steps counts for one."""
        counts, ends = {1: 3, 3: 2, 4: 5}, (1, 6)
        for place, most, onward_to, back_to in [((1, 0), 3, (2, 0), None), ((1, 1), 3, (3, 0), None), ((1, 1), 4, (4, 0), None), ((1, 2), 2, (3, 0), (1, 0)),
                                                ((4, 4), 4, None, (4, 0)), ((4, 4), 5, None, (3, 0)), ((4, 2), 3, (5, 0), (3, 0)), ((5, 0), 5, None, (4, 0)),
                                                ((5, 0), 6, None, (3, 0)), ((5, 0), 8, None, (2, 0)), ((5, 0), 9, None, (1, 0)), ((5, 0), 99, None, None),
                                                ((5, 0), 1, (6, 0), (4, 0)), ((2, 0), 1, (3, 0), (1, 0))]:
            self.assertEqual(end_of_steps(counts, place, most, True, ends), onward_to, (place, most))
            self.assertEqual(end_of_steps(counts, place, most, False, ends), back_to, (place, most))


class TwoThreads(unittest.TestCase):
    """Thread 1 creates thread 2 in event 1, which makes three steps in event 3; then thread 1 goes on in event 5, and thread 2 ends in event 7."""

    def setUp(self):
        switch = switched(keys=True, long_runs=True)
        switch.__enter__()
        self.addCleanup(switch.__exit__, None, None, None)
        self.recording = recording_of([(2, store()), (1, call(Call.SELF)), (2, call(Call.THREAD_EXIT, 0)), (1, call(Call.SELF))], threads=1)
        self.steps = steps_of(self.recording)


class Named(TwoThreads):
    def test_whom(self):
        for running, there, before, expected in [(2, {1, 2}, 1, 2), (None, {1, 2}, 2, 2), (None, {1, 3}, 2, 1), (None, {3, 4}, 2, 3), (None, set(), 2, 1)]:
            self.assertEqual(named(running, there, before), expected)
        self.assertEqual([named_instead({2, 3}, number) for number in (1, 2, 3)], [2, 2, 3])

    def test_places(self):
        self.assertEqual([(next_step(self.steps, place) or self.steps[0]).before for place in [(3, 1), (4, 0), (5, 0)]], [(3, 1), (1, 0), (5, 0)])
        self.assertIsNone(next_step(self.steps, (2, 0)))
        self.assertEqual([sorted(threads_at(self.steps, place)) for place in [(0, 0), (1, 6), (2, 0), (7, 0), (8, 0), (10, 0)]],
                         [[1], [1], [1, 2], [1, 2], [1], [1]])
        ended = steps_of(recording_of([(2, call(Call.THREAD_EXIT, 0))], threads=1))
        self.assertEqual(sorted(threads_at(ended, (4, 0))), [1])

    def test_texts(self):
        self.assertEqual(text_of_stop("T05", 10), "T05thread:a;")
        self.assertEqual([thread_of_stop(text) for text in ("T05watch:2000;thread:1f;", "T02thread:2;")], [31, 2])
        self.assertEqual([told_at(answer, 1) for answer in (BEGIN, END, "T05thread:2;")], [BEGIN + "thread:1;", END + "thread:1;", "T05thread:2;"])

    def test_own_step(self):
        self.assertEqual([own_step(self.steps, place, thread).before for place, thread in [((5, 0), 2), ((3, 1), 2), ((3, 1), 1)]], [(7, 0), (3, 1), (5, 0)])
        self.assertIsNone(own_step(self.steps, (3, 0), 9))

    def test_moved(self):
        """An end names the thread of the stop before, if nobody's step is next, and one that is there."""
        ways = [((3, 1), ["vCont;c", "bc"]), ((5, 0), ["vCont;c"]), ((7, 1), ["vCont;c"])]
        case = MovedCase(b"", Stops([], []), ways)
        expected = expected_motions(case, self.recording)
        self.assertEqual(len(expected), len(packets_of(case)))
        self.assertEqual([expected[place] for place in (2, 4, 7, 10)], [("", END + "thread:1;"), ("", BEGIN + "thread:1;"),
                                                                       ("", END + "thread:1;"), ("", END + "thread:1;")])
        self.assertEqual(expected[1], ("event 3+1, from 0 to 10\n", "OK"))
        recording = recording_of([(2, store()), (1, call(Call.SELF))], threads=1)
        expected = expected_motions(MovedCase(b"", Stops([], []), [((3, 1), ["vCont;c"]), ((4, 0), ["vCont;c"])]), recording)
        self.assertEqual([expected[place] for place in (2, 5)], [("", END + "thread:2;")] * 2)
        expected = expected_motions(MovedCase(b"", Stops([], []), [((4, 0), ["vCont;c"])]), recording)
        self.assertEqual(expected[2], ("", END + "thread:1;"))
        expected = expected_motions(MovedCase(b"", Stops([0x1000], []), [((3, 1), ["bc", "vCont;c"])]), recording)
        self.assertEqual(expected[3:6:2], [("", "T05thread:1;"), ("", END + "thread:1;")])

    def test_one_answer(self):
        """Breakpoint, change, and the change again; then behind the step that is left."""
        disk = format_disk(SMALL, CHANGES)
        serve_disk(disk, b"place 0 1\nrun 0 2\nrun 0 9\ncommit\n")
        case = MovedCase(b"", Stops([0x1008], [(0x2001, 1), (0x2000, 4)]), [((0, 0), ["vCont;c"] * 3), ((3, 0), ["bc"] * 2)])
        expected = expected_motions(case, Recording(disk))
        change = "", "T05watch:2001;thread:1;"
        self.assertEqual((expected[5:10:2], expected[12:15:2]), ([("", "T05thread:1;"), change, change], [change] * 2))


class Beginnings(unittest.TestCase):
    """Sessions begin with the older area, where one fits; where that leads elsewhere they are asked to begin at the last checkpoint."""

    def setUp(self):
        switch = switched(keys=True, long_runs=True)
        switch.__enter__()
        self.addCleanup(switch.__exit__, None, None, None)
        words = with_second([*CREATES, *call(Call.THREAD_EXIT, 0)])
        led = [*LED, "place 0 1", "run 0 2", "commit"]
        self.good = bytes(TwoAreas(*led).disk.bytes)
        self.misled = bytes(TwoAreas(*led).flip(SMALL.page_at(0, 16) - 1).disk.bytes)
        self.ended = of_two_areas(words, "place 0 1", "run 0 99", "commit", "checkpoint", "tick 1", behind=["place 0 2", "run 0 1", "tick 1"])
        self.recordings = [Recording(bytearray(disk)) for disk in (self.good, self.misled, self.ended)]

    def test_places(self):
        self.assertEqual([place_at_first(recording) for recording in self.recordings], [((0, 0), 1), ((2, 0), 1), ((2, 0), 2)])
        self.assertEqual([words_at_first(recording) for recording in self.recordings], [[], ["--at", "2"], []])
        self.assertEqual([(recording.first, recording.is_misled) for recording in self.recordings], [(0, False), (2, True), (2, False)])
        behind_refused = Recording(TwoAreas().put(SMALL.area_at(0), [0]).disk.bytes)
        self.assertEqual((behind_refused.first, behind_refused.is_misled, place_at_first(behind_refused)), (2, False, ((2, 0), 1)))

    def test_next_at_first(self):
        """Where a session is asked to begin at the checkpoint, the thread is named whose step is next there; else nobody looks for that."""
        for behind, named_there in ((["run 0 1"], 2), (["tick 1", "run 0 1"], 1)):
            disk = MemoryDisk(bytearray(of_two_areas(with_second([*CREATES, STOP]), "place 0 1", "run 0 7", "place 0 2", behind=behind)))
            self.assertEqual(place_at_first(Recording(disk.bytes)), ((0, 0), 1))
            disk.write(SMALL.page_at(0, 16) - 1, b"\1")
            misled = Recording(disk.bytes)
            self.assertEqual((misled.is_misled, place_at_first(misled)), (True, ((3, 0), named_there)))
            expected = expected_motions(MovedCase(b"", Stops([], []), [(None, ["vCont;c"])]), misled)
            self.assertEqual(expected[1], ("", END + f"thread:{named_there};"))
            disk.write(SMALL.area_at(0), b"\0")
            self.assertEqual(place_at_first(Recording(disk.bytes)), ((3, 0), 1))

    def test_moved(self):
        """From there, without going anywhere before; at the ends those are named that are there, and that the first stop named."""
        case = MovedCase(b"", Stops([], []), [(None, ["bc"])])
        self.assertEqual(packets_of(case)[:3], ["QStartNoAckMode", "bc", monitor("events")])
        for recording, begin, thread in zip(self.recordings, (0, 2, 2), (1, 1, 2)):
            told = ("", BEGIN + f"thread:{thread};"), (f"event {begin}, from {begin} to {recording.whole}\n", "OK")
            self.assertEqual(expected_motions(case, recording)[1:3], [*told])
        case.ways[0][1][0] = "vCont;c"
        for recording, thread in zip(self.recordings, (1, 1, 2)):
            told = ("", END + f"thread:{thread};"), (f"event {recording.whole}, from {recording.first} to {recording.whole}\n", "OK")
            self.assertEqual(expected_motions(case, recording)[1:3], [*told])

    def test_stepped(self):
        for recording in self.recordings:
            way = Way(Random(1), recording, steps_of(recording), Stops([], []))
            self.assertEqual((way.place, way.named), place_at_first(recording))
            way.why()
            self.assertEqual(way.asked, [("?", ("", text_of_stop("T05", way.named)))])

    def test_drawn(self):
        """Some ways begin there, and some go elsewhere first; a session on a disk that misleads is asked to begin there."""
        gone = []
        for kind, name in ((moved_case, "moved"), (stepped_case, "stepped")):
            for seed in range(12):
                with patch(f"cases.{name}.recorded_disk", lambda chance, case: bytearray(self.misled if seed == 11 else self.good)):
                    case = kind(Random(seed), None)
                packets = packets_of(case)[1 + len(case.stops.packets()):] if kind is moved_case else [packet for packet, _ in case.asked if packet[0] != "Z"]
                self.assertEqual(kind is stepped_case and packets.pop(0), kind is stepped_case and "?")
                gone.append(packets[0].startswith(monitor("goto 0")[:14]))
                if kind is stepped_case:
                    self.assertEqual(case.words, ["--at", "2"] if seed == 11 else [])
        self.assertTrue(3 < sum(gone[:12]) < 10 and 3 < sum(gone[12:]) < 10, gone)


class Ways(TwoThreads):
    """What is drawn, and what is expected of it."""

    def setUp(self):
        super().setUp()
        self.way = Way(Random(1), self.recording, self.steps, Stops([], []))
        self.way.written = lambda command: command

    def stand(self, place, named_before=1, until=None, limit=None):
        self.way.place, self.way.named, self.way.until, self.way.limit = place, named_before, until, limit

    def test_bounds(self):
        """The nearest of the places at which a motion ends. Where it ends there anyway the reason to do so is told. Where both bounds end it
        the limit isn't told."""
        self.stand((3, 0), until=(4, 0))
        for came, is_onward, expected in [((6, 0), True, ((4, 0), "T00")), ((4, 0), True, ((4, 0), "T05x")), ((3, 2), True, ((3, 2), "T05x")),
                                          ((1, 0), False, ((1, 0), "T05x"))]:
            self.assertEqual(self.way.bounded(came, "T05x", is_onward, None), expected)
        self.assertEqual(self.way.bounded((4, 0), "T0bx", True, None), ((4, 0), "T0bx"))
        self.stand((6, 0), until=(4, 0))
        self.assertEqual(self.way.bounded((4, 0), "T05x", False, None), ((4, 0), "T05x"))
        self.assertEqual(self.way.bounded((1, 0), "T05x", False, None), ((4, 0), "T00"))
        self.stand((6, 0), until=(6, 0))
        self.assertEqual(self.way.bounded((1, 0), "T05x", False, None), ((1, 0), "T05x"))
        self.stand((3, 0), limit=3)
        self.assertEqual(self.way.bounded((9, 0), "T05x", True, None), ((4, 0), "T02"))
        self.assertEqual(self.way.bounded((4, 0), "T05x", True, None), ((4, 0), "T05x"))
        self.stand((3, 0), until=(4, 0), limit=3)
        self.assertEqual(self.way.bounded((9, 0), "T05x", True, None), ((4, 0), "T00"))
        self.assertEqual(self.way.bounded((4, 0), "T05x", True, None), ((4, 0), "T05x"))
        self.assertEqual(self.way.motion("vCont;c", 1), ((4, 0), "T00thread:1;"))
        self.stand((6, 0), until=(5, 0), limit=1)
        self.assertEqual(self.way.bounded((1, 0), "T05x", False, None), ((5, 0), "T00"))
        self.stand((3, 0), until=(3, 2), limit=4)
        self.assertEqual(self.way.bounded((9, 0), "T05x", True, None), ((3, 2), "T00"))
        self.stand((6, 0), until=(3, 1), limit=1)
        self.assertEqual(self.way.bounded((1, 0), "T05x", False, None), ((5, 0), "T02"))
        self.stand((3, 0), limit=4)
        self.assertEqual(self.way.bounded((9, 0), "T05x", True, None), ((5, 0), "T02"))

    def test_bounds_at_a_change(self):
        """Onward a bound is told just before a change, but where that is of the step that was asked for; going back the change is told."""
        change = "T05watch:2800;x"
        for bound, why in (({"until": (4, 0)}, "T00"), ({"limit": 3}, "T02"), ({"until": (4, 0), "limit": 3}, "T00")):
            self.stand((3, 0), **bound)
            self.assertEqual(self.way.bounded((4, 0), change, True, None), ((4, 0), why))
            self.assertEqual(self.way.bounded((4, 0), change, True, (5, 0)), ((4, 0), why))
            self.assertEqual(self.way.bounded((4, 0), change, True, (4, 0)), ((4, 0), change))
            self.assertEqual(self.way.bounded((3, 2), change, True, None), ((3, 2), change))
            self.stand((4, 0), **bound)
            self.assertEqual(self.way.bounded((4, 0), change, True, None), ((4, 0), change))
        for bound in ({"until": (3, 0)}, {"limit": 3}):
            self.stand((4, 0), **bound)
            self.assertEqual(self.way.bounded((3, 0), change, False, None), ((3, 0), change))

    def test_own_steps(self):
        """The step of a thread that is next where a motion would end is made too, but for one that changes what is watched."""
        for bound in ({"until": (5, 0)}, {"limit": 4}):
            self.stand((3, 0), **bound)
            self.assertEqual(self.way.motion("step", 1), ((5, 1), "T05thread:1;"))
            self.assertEqual(self.way.motion("range", 1), ((5, 1), "T05thread:1;"))
            self.assertEqual(self.way.motion("vCont;c", 1)[0], (5, 0))
        self.stand((3, 0), until=(4, 0))
        self.assertEqual(self.way.motion("step", 1), ((4, 0), "T00thread:1;"))
        self.stand((3, 0), until=(3, 1))
        self.assertEqual(self.way.motion("step", 2), ((3, 1), "T05thread:2;"))
        for until in (None, (4, 0)):
            self.stand((3, 2), until=until, limit=1)
            self.assertEqual(self.way.motion("range", 2), ((4, 0), "T05thread:2;"))

    def test_changes(self):
        """The step behind (5, 0) is one of thread 1, and changes what is watched: to it that is told, and to others a bound first."""
        changing, change = next_step(self.steps, (5, 0)), ((5, 0), "T05watch:2800;thread:1;")
        changing.changed, self.way.stops = frozenset([0x2801]), Stops([], [(0x2800, 4)])
        for bound, why in (({"until": (5, 0)}, "T00"), ({"limit": 4}, "T02"), ({"until": (5, 0), "limit": 4}, "T00")):
            self.stand((3, 0), **bound)
            self.assertEqual([self.way.motion(kind, 1) for kind in ("step", "range")], [change] * 2)
            self.assertEqual(self.way.motion("vCont;c", 1), ((5, 0), f"{why}thread:1;"))
        for bound, why in (({"until": (5, 0)}, "T00"), ({"limit": 1}, "T02"), ({"until": (5, 0), "limit": 1}, "T00")):
            self.stand((4, 0), **bound)
            self.assertEqual([self.way.motion(kind, 2) for kind in ("step", "range")], [((5, 0), f"{why}thread:1;")] * 2)
            self.stand((5, 0), **bound)
            self.assertEqual([self.way.motion(kind, 2) for kind in ("step", "range", "vCont;c")], [change] * 3)

    def test_changes_at_breakpoints(self):
        """There the breakpoint is told, but to who asked for the step itself."""
        changing, told = next_step(self.steps, (5, 0)), ((5, 0), "T05thread:1;")
        changing.changed, self.way.stops = frozenset([0x2801]), Stops([changing.place], [(0x2800, 4)])
        for bound in ({}, {"until": (5, 0)}, {"limit": 1}):
            self.stand((4, 0), **bound)
            self.assertEqual([self.way.motion(kind, 2) for kind in ("step", "range", "vCont;c")], [told] * 3)
            self.assertEqual(self.way.motion("step", 1), ((5, 0), "T05watch:2800;thread:1;"))

    def test_own_steps_back(self):
        """No bound is told before the step that `bs` asks for, nor where a breakpoint or a change is."""
        for bound in ({"until": (3, 2)}, {"limit": 2}):
            self.stand((5, 0), **bound)
            self.assertEqual(self.way.motion("bs", 2), ((3, 2), "T05thread:2;"))
        self.stand((5, 0), until=(3, 2))
        self.way.stops = Stops([next_step(self.steps, (3, 2)).place], [])
        self.assertEqual([self.way.motion("bs", thread) for thread in (1, 2)], [((3, 2), "T05thread:2;")] * 2)
        next_step(self.steps, (3, 1)).changed = frozenset([0x2801])
        self.way.stops = Stops([], [(0x2800, 4)])
        self.assertEqual([self.way.motion(kind, 2) for kind in ("bs", "bc")], [((3, 2), "T05watch:2800;thread:2;")] * 2)
        self.way.stops = Stops([], [])
        for bound in ({"until": (3, 0)}, {"limit": 1}):
            self.stand((3, 1), **bound)
            self.assertEqual(self.way.motion("bs", 2), ((3, 0), "T05thread:2;"))
        self.assertEqual(self.way.motion("bs", 1), ((3, 0), "T02thread:2;"))

    def test_begin_and_end(self):
        """At an end of the history no bound is told, nor at a breakpoint going back."""
        for bound in ({"until": (0, 0)}, {"limit": 1}):
            self.stand((1, 0), **bound)
            self.assertEqual(self.way.motion("bc", 1), ((0, 0), BEGIN + "thread:1;"))
        for bound in ({"until": (10, 0)}, {"limit": 1}):
            self.stand((9, 0), **bound)
            self.assertEqual([self.way.motion("vCont;c", 1)[0], self.way.motion("step", 2)], [(10, 0), ((10, 0), END + "thread:1;")])
        self.way.stops = Stops([next_step(self.steps, (3, 0)).place], [])
        for bound in ({"until": (3, 0)}, {"limit": 3}):
            self.stand((4, 0), **bound)
            self.assertEqual(self.way.motion("bc", 1), ((3, 0), "T05thread:2;"))

    def test_faults(self):
        """Behind that of the last step is the end of the history: its signal is told."""
        self.steps[-1].fault = 2
        for kind in ("vCont;c", "step"):
            for bound in ({"until": (10, 0)}, {"until": (10, 0), "limit": 1}, {"limit": 1}):
                self.stand((9, 0), **bound)
                self.assertEqual((self.steps[-1].behind, self.way.motion(kind, 2)), ((10, 0), ((10, 0), "T04thread:1;")))

    def test_ends(self):
        """Where nobody's step is next the thread is named that was to step; a motion of all names that of the stop before."""
        self.stand((4, 0), named_before=1)
        self.assertEqual(self.way.motion("bs", 1), ((1, 6), "T05thread:1;"))
        self.stand((8, 0), named_before=1)
        self.assertEqual(self.way.motion("vCont;c", 1), ((10, 0), END + "thread:1;"))
        self.stand((3, 1), named_before=2, until=(4, 0))
        for kind, number in (("step", 1), ("range", 1), ("vCont;c", 2)):
            self.assertEqual(self.way.motion(kind, 1), ((4, 0), f"T00thread:{number};"))
        self.stand((4, 0), named_before=1)
        self.assertEqual(self.way.motion("step", 9), ((10, 0), END + "thread:1;"))

    def test_stops_before_they_are_made(self):
        """In place of thread 2, which was to step or was named before, stands the first one where it isn't made yet."""
        for kind in ("bs", "bc"):
            self.stand((3, 0), named_before=2)
            self.assertEqual(self.way.motion(kind, 2), ((0, 0), BEGIN + "thread:1;"))
            self.stand((3, 1), named_before=2, until=(2, 0))
            self.assertEqual(self.way.motion("bc", 2), ((2, 0), "T00thread:2;"))

    def test_threads_that_are_not_there(self):
        """In place of any, of all, and of one that isn't there, that of the last stop."""
        self.stand((4, 0), named_before=2)
        self.assertEqual([self.way.meant(thread) for thread in (0, -1, 63, 1, 2)], [2, 2, 2, 1, 2])
        self.stand((8, 0), named_before=1)
        self.assertEqual(self.way.meant(2), 1)
        drawn = {self.way.drawn_thread() for _ in range(60)}
        self.assertEqual(drawn, {1, 0, -1, 2, 3, 63})

    def test_commands(self):
        """What they tell; a place that isn't there leaves the one that is."""
        told = {}
        for _ in range(60):
            self.stand((3, 1), until=(3, 0))
            self.way.set_until()
            told[self.way.asked[-1][0]] = self.way.asked[-1][1][0], self.way.until
        place = self.way.place
        for (packet, (text, until)) in told.items():
            asked = tuple(int(word) for word in (bytes.fromhex(packet[6:]).decode().split()[1] + "+0").split("+")[:2])
            way = "here" if asked == place else "continue goes there" if asked > place else "reverse-continue goes there"
            expected = "no such position" if asked > (10, 0) else way
            self.assertEqual((text, until), (expected + "\n", (3, 0) if expected[0] == "n" else asked))
        for text in ("no such position\n", "continue goes there\n", "reverse-continue goes there\n"):
            self.assertIn(text, [shown for shown, _ in told.values()])
        self.way.set_limit()
        self.assertEqual(self.way.asked[-1], (monitor(f"limit {self.way.limit}"), (f"limit {self.way.limit}\n", "OK")))

    def test_moves(self):
        """Behind going somewhere, and behind a motion, it is asked why the session stands."""
        self.way.drawn_place = lambda: (3, 1)
        self.way.goto()
        self.assertEqual(self.way.asked, [(monitor("goto 3+1"), ("event 3+1, from 0 to 10\n", "OK")), ("?", ("", "T05thread:2;"))])
        for _ in range(30):
            before = len(self.way.asked)
            self.way.move()
            *_, (_, answer), (_, place), (packet, why) = self.way.asked[before:]
            self.assertEqual((packet, why), ("?", answer))
            self.assertEqual(place, (self.way.place_text() + "\n", "OK"))
            self.assertEqual(self.way.named, thread_of_stop(answer[1]))
