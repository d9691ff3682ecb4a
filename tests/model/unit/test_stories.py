"""Other ways on: what a cut leaves, events behind it and why there are none, and turns of a drive."""
import unittest
from collections import Counter
from copy import deepcopy
from random import Random
from unittest.mock import patch

from cases.lived import LivedCase, Script, difference_of_answers, lived_case
from model.abi import Call
from model.assembler import STOP, Branch, Program, call_words, image_of
from model.devices import MemoryDisk
from model.events import Place, Run, RunLong, Tick
from model.layout import Geometry, format_disk
from model.lines import serve_disk
from model.plans import Drive, Options
from model.stories import MOST_STEPS, Story, TooLong, make
from model.stretches import Recording
from model.stubs import monitor
from model.switches import switched
from unit.test_begun import of_two_areas
from unit.test_call_lines import TwoAreas
from unit.test_mistyped import LISTED
from unit.test_races import call, load, recording_of

NOT_AT_END = "not at the end of the history: monitor fork ends it here"
LOCKS = call_words(Call.MUTEX_LOCK, 0x2000)
SMALL = Geometry(16, 1, 4096)


def story_of(words, *lines, at=None):
    disk = format_disk(SMALL, image_of(words))
    serve_disk(disk, "\n".join([*lines, "commit", ""]).encode())
    return Story(Recording(disk), at)


class WithKeys(unittest.TestCase):
    def setUp(self):
        switch = switched(keys=True, long_runs=True)
        switch.__enter__()
        self.addCleanup(switch.__exit__, None, None, None)

    def at_end(self, words, *lines):
        story = story_of(words, *lines)
        story.goto((story.last, 0))
        return story


class Cuts(WithKeys):
    def setUp(self):
        super().setUp()
        self.story = story_of([*call_words(Call.SELF), STOP], "place 0 1", "run 0 9", "tick 1", "run 0 5")

    def test_whole(self):
        self.assertEqual((self.story.position, self.story.positions), ((0, 0), [1, 9, 1, 5]))
        self.assertEqual(self.story.place_text(), "event 0, from 0 to 4\n")
        self.assertEqual(story_of([STOP], "place 0 1", "tick 1", at=1).position, (1, 0))

    def test_places(self):
        self.assertEqual([self.story.has(place) for place in [(1, 8), (1, 9), (2, 0), (2, 1), (4, 0), (4, 1), (5, 0)]],
                         [True, False, True, False, True, False, False])
        self.assertEqual([self.story.goto(place) for place in [(1, 2), (1, 9)]], [True, False])
        self.assertEqual(self.story.place_text(), "event 1+2, from 0 to 4\n")

    def test_at_an_event(self):
        """What is left the disk has, too."""
        self.story.goto((2, 0))
        self.assertEqual(self.story.fork(), "event 2, from 0 to 2\n")
        self.assertEqual(self.story.add("tick 7"), "event 3, from 0 to 3, recorded to 2\n")
        self.assertEqual((self.story.events[1:], self.story.end.clock), ([Run(0, 9), Tick(7)], 7))
        self.assertEqual(self.story.fork(), "event 3, from 0 to 3, recorded to 2\n")

    def test_within_a_run(self):
        """Of it the steps that are made are left, which the disk hasn't as an event."""
        self.story.goto((1, 2))
        self.assertEqual(self.story.fork(), "event 2, from 0 to 2, recorded to 1\n")
        self.assertEqual((self.story.events, self.story.positions), ([Place(0, 1), Run(0, 2)], [1, 2]))
        self.assertEqual((self.story.end.threads[1].pc, self.story.machine_at((1, 1)).threads[1].pc), (0x1008, 0x1004))
        self.story.goto((1, 1))
        self.assertEqual(self.story.fork(), "event 2, from 0 to 2, recorded to 1\n")
        self.story.goto((0, 0))
        self.assertEqual(self.story.fork(), "event 0, from 0 to 0\n")
        self.assertEqual(self.story.add("place 0 1"), "event 1, from 0 to 1, recorded to 0\n")

    def test_end(self):
        self.story.goto((4, 0))
        self.assertEqual(self.story.fork(), "event 4, from 0 to 4\n")


class Beginnings(WithKeys):
    """A session stands before its first event, which the older area may have."""

    def setUp(self):
        super().setUp()
        self.misled = bytes(TwoAreas().flip(SMALL.page_at(0, 16) - 1).disk.bytes)

    def test_places(self):
        story = Story(Recording(TwoAreas().disk.bytes))
        self.assertEqual((story.position, story.named, story.place_text()), ((0, 0), 1, "event 0, from 0 to 3\n"))
        self.assertEqual((story.goto((2, 0)), story.fork(), story.goto((1, 1)), story.events), (True, "event 2, from 0 to 2\n", True, [Place(0, 1), Run(0, 9)]))
        for at in (0, 2, 3):
            story = Story(Recording(TwoAreas().disk.bytes), at)
            self.assertEqual((story.position, story.named), ((at, 0), 1))

    def test_shown(self):
        """Thread 1, where it hasn't ended by then; else the first one."""
        words = [*call(Call.CREATE, 0x1100, 7, 0, 0), *call(Call.THREAD_EXIT, 0)]
        recording = Recording(bytearray(of_two_areas(image_of(words), "place 0 1", "run 0 99", "commit", "checkpoint", "tick 1", behind=["tick 1"])))
        story = Story(recording)
        self.assertEqual((story.position, story.named, story.recorded), ((2, 0), 2, 4))
        self.assertEqual([Story(recording, at).named for at in (2, 3, 4)], [2, 2, 2])

    def test_drawn(self):
        """Why it stands there is asked first of all. On a disk that misleads a session is asked to begin there, or behind it."""
        for disk, ats in ((bytes(TwoAreas().disk.bytes), {(), ("0",), ("1",), ("2",), ("3",)}), (self.misled, {("2",), ("3",)})):
            drawn = []
            for seed in range(40):
                with patch("cases.lived.recorded_disk", lambda chance, case: bytearray(disk)):
                    case = lived_case(Random(seed), None)
                drawn.append(tuple(case.words[1:]))
                self.assertEqual([packet for packet, _ in case.asked[:2]], ["?", "g"])
                self.assertEqual(case.asked[0][1], ("", "T05thread:1;"))
            self.assertEqual(set(drawn), ats)


class Events(WithKeys):
    def test_refusals(self):
        """A line that is none comes before all else; then where one stands; then what the machine refuses."""
        story = story_of([STOP], "place 0 1")
        for line, told in [("jump", "no 31 Unknown"), ("", "no 31 Unknown"), ("commit", "no 31 Unknown"), ("auto 0 1", "no 31 Unknown"),
                           ("run 0 x", "no 32 Number"), ("in 4", "no 33 Hex"), ("run 0 0", "no 34 Range"), ("a" * 161, "no 35 TooLong"),
                           ("tick 1", NOT_AT_END), ("place 0 1", NOT_AT_END)]:
            self.assertEqual(story.add(line), told + "\n")
        story.goto((1, 0))
        self.assertEqual([story.add(line) for line in ("place 0 1", "run 1 1", "run 0 1")],
                         ["no 4 NotReady\n", "no 2 NoSuchHart\n", "event 2, from 0 to 2, recorded to 1\n"])

    def test_room(self):
        """Behind a cut there may be as many more as the cut forgot."""
        story = self.at_end([STOP], "tick 1", "tick 1")
        story.goto((1, 0))
        story.fork()
        story.events += [Tick(1)] * 65_536
        story.positions += [1] * 65_536
        story.position = story.last, 0
        self.assertEqual(story.add("tick 1"), "event 65538, from 0 to 65538, recorded to 1\n")
        self.assertEqual(story.add("tick 1"), "no room for another event\n")
        self.assertEqual(story.live(3).splitlines()[:2], ["events made: 0", "no room for another event"])


class Turns(WithKeys):
    def test_ends(self):
        """Each is told; where just so many events were made as were asked for, that of a program that has ended."""
        for words, count, reason in [
                (call_words(Call.EXIT, 0), 2, "the program has ended"), ([0], 2, "the program has ended"),
                ([*call_words(Call.GETC), STOP], 2, "the program waits for input: monitor event in HEX gives it some"),
                (LOCKS * 2, 2, "no thread can go on")]:
            for most in (count, 9):
                story = story_of(words)
                end = f"{reason}\n" if most > count or reason == "the program has ended" else ""
                self.assertEqual(story.live(most), f"events made: {count}\n{end}event {count}, from 0 to {count}, recorded to 0\n")
                self.assertEqual(story.live(most).splitlines()[:2], ["events made: 0", reason])
            self.assertEqual(story_of(words).live(1), "events made: 1\nevent 1, from 0 to 1, recorded to 0\n")

    def test_not_at_end(self):
        story = story_of([STOP], "place 0 1")
        self.assertEqual(story.live(3), f"events made: 0\n{NOT_AT_END}\nevent 0, from 0 to 1\n")
        ended = story_of(call_words(Call.EXIT, 0), "place 0 1", "run 0 9")
        self.assertEqual(ended.live(3), f"events made: 0\n{NOT_AT_END}\nevent 0, from 0 to 2\n")

    def test_turns(self):
        """A round's place hangs on how many events there are."""
        story = self.at_end([STOP], "tick 1")
        story.live(5)
        self.assertEqual(story.events, [Tick(1), Place(0, 1), Tick(1), RunLong(0, 1_000_000), RunLong(0, 1_000_000), Tick(1)])
        self.assertEqual(story.position, (6, 0))

    def test_numbered_as_on_the_disk(self):
        """Behind a checkpoint with events that no journal has the history begins at event 2. Event 3 begins round 1, which is thread 2's."""
        words = [*call(Call.CREATE, 0x1100, 0, 0, 0), STOP]
        story = self.at_end(words, "place 0 1", f"run 0 {len(words) - 1}", "checkpoint", "tick 1")
        story.live(1)
        self.assertEqual((story.first, story.events), (2, [Tick(1), Place(0, 2)]))

    def test_last_moment(self):
        words = [*call_words(Call.SLEEP_UNTIL, 0xFFFFFFFF, 0x7FFFFFFF), STOP]
        story = story_of(words)
        story.live(2)
        story.end.clock = 2 ** 63 - 2
        self.assertEqual(story.live(1), "events made: 1\nevent 3, from 0 to 3, recorded to 0\n")
        self.assertEqual(story.live(9).splitlines()[1:2], ["no 8 ClockEnd"])

    def test_as_a_drive(self):
        """Behind what a drive has recorded come the events that it would go on with."""
        words = [*call_words(Call.PUTC, 65), *call_words(Call.CLOCK), *call_words(Call.SLEEP_UNTIL, 9, 0), *call_words(Call.GETC)]
        whole, part = (bytearray(format_disk(SMALL, image_of(words))) for _ in range(2))
        Drive(MemoryDisk(whole), bytearray(), Options(), None).run()
        driven = Recording(whole)
        for count in range(len(driven.events)):
            part = bytearray(format_disk(SMALL, image_of(words)))
            Drive(MemoryDisk(part), bytearray(), Options(events=count), None).run()
            story = Story(Recording(part))
            story.goto((count, 0))
            story.live(99)
            self.assertEqual(story.events, driven.events)


class Steps(WithKeys):
    def test_made(self):
        """As the machine makes them, though they are fewer than may be."""
        for words, steps in [([*call_words(Call.GETC), STOP], 9), ([STOP], 1_000_000), ([0], 9)]:
            story = self.at_end(words, "place 0 1")
            other = deepcopy(story.end)
            made = make(story.end, RunLong(0, steps))
            reply, _ = other.step(Run(0, min(steps, 9)))
            self.assertEqual(made, steps if words == [STOP] else int(reply.split()[1]))
            self.assertEqual((vars(story.end.threads[1]), story.end.harts), (vars(other.threads[1]), other.harts))
        self.assertEqual(make(story.end, Tick(1)), 0)

    def test_output(self):
        """A run ends with its 1,024th byte."""
        program = Program()
        program.label("again")
        program.add([*call_words(Call.PUTC, 65), Branch(0, 0, 0, "again")])
        story = self.at_end(program.words(), "place 0 1")
        self.assertEqual(make(story.end, RunLong(0, 5000)), 1023 * 4 + 3)

    def test_too_long(self):
        program = Program()
        program.label("again")
        program.add([Branch(0, 0, 0, "again")])
        with self.assertRaises(TooLong):
            make(self.at_end(program.words(), "place 0 1").end, RunLong(0, MOST_STEPS + 1))


class Named(WithKeys):
    """Whom a stop names, in sessions of two threads."""

    def setUp(self):
        super().setUp()
        self.recording = recording_of([(2, [*load(), *load()]), (1, load())], threads=1)
        self.story = Story(self.recording)

    def named(self, *places):
        """Behind going to each of them in turn."""
        for place in places:
            self.assertTrue(self.story.goto(place))
        return self.story.named

    def test_next(self):
        """The thread whose step is next, within a run too; else that of the stop before, which is the first one's before a session has any."""
        self.assertEqual(self.story.named, 1)
        self.assertEqual(self.named((4, 0)), 1)
        self.assertEqual(self.named((3, 2)), 2)
        self.assertEqual(self.named((4, 0)), 2)
        self.assertEqual([self.named((5, 0)), self.named((4, 0)), self.named((6, 0))], [1, 1, 1])
        self.assertFalse(self.story.goto((9, 0)))
        self.assertEqual(self.story.named, 1)

    def test_at(self):
        """Where a session begins elsewhere the thread is named whose step is next there, and else thread 1; the stop behind it keeps to that."""
        stories = [Story(self.recording, at) for at in range(7)]
        self.assertEqual([story.named for story in stories], [1, 1, 1, 2, 1, 1, 1])
        self.assertEqual([(story.goto((4, 0)), story.named) for story in stories], [(True, number) for number in (1, 1, 1, 2, 1, 1, 1)])

    def test_next_at_first(self):
        """Where the history begins with a step of thread 2, that is named with `--at`, and thread 1 without."""
        words = [*call(Call.CREATE, 0x1100, 0, 0, 0), STOP]
        lines = ["place 0 1", f"run 0 {len(words) - 1}", "place 0 2", "checkpoint", "run 0 1", "tick 1"]
        self.assertEqual([story_of(words, *lines, at=at).named for at in (None, 3, 4, 5)], [1, 2, 1, 1])

    def test_not_there(self):
        """Before it is made, thread 2 isn't there: the first one is."""
        self.assertEqual(self.named((3, 1), (0, 0)), 1)
        self.assertEqual(story_of([STOP], "place 0 1").named_at((0, 0), 2), 1)

    def test_behind_a_checkpoint(self):
        """Which saved an event that no journal has: the history begins there."""
        words = [*call(Call.CREATE, 0x1100, 0, 0, 0), STOP]
        story = story_of(words, "place 0 1", f"run 0 {len(words) - 1}", "checkpoint", "tick 1", "place 0 2", "run 0 1")
        story.named = 1
        self.assertEqual((story.first, story.last, story.goto((4, 0)), story.named), (2, 5, True, 2))

    def test_more_events(self):
        """A cut is no stop. What an event leads to is one, and what a drive's turns do, too."""
        self.named((3, 1))
        self.story.fork()
        self.assertEqual(self.story.named, 2)
        self.story.add("place 0 1")
        self.assertEqual(self.story.named, 2)
        self.assertEqual(self.story.add("run 0 0"), "no 34 Range\n")
        ended = story_of([*call(Call.CREATE, 0x1100, 0, 0, 0), *call(Call.THREAD_EXIT, 0)], "place 0 1", "run 0 7")
        ended.named = 1
        ended.goto((2, 0))
        self.assertEqual(ended.named, 1)
        self.assertEqual((ended.add("run 0 9"), ended.named), ("event 3, from 0 to 3, recorded to 2\n", 2))
        again = story_of([*call(Call.CREATE, 0x1100, 0, 0, 0), *call(Call.THREAD_EXIT, 0)])
        again.named = 1
        self.assertEqual((again.live(2).splitlines()[0], again.named), ("events made: 2", 2))

    def test_one_stop(self):
        """Of all events that turns make the last one leads to the only stop; before the end of the history there is none."""
        story, stops = self.at_end([STOP], "tick 1"), []
        story.stop = lambda: stops.append(story.position)
        story.live(5)
        self.assertEqual(stops, [(6, 0)])
        story.position = 0, 0
        story.live(5)
        self.assertEqual(stops, [(6, 0)])

    def test_stop_without_events(self):
        """At the end a stop is made whatever keeps the next event from being made."""
        for words, clock, reason in [(call_words(Call.EXIT, 0), 0, "the program has ended"), (LOCKS * 2, 0, "no thread can go on"),
                                     (call_words(Call.GETC), 0, "the program waits for input: monitor event in HEX gives it some"),
                                     (call_words(Call.SLEEP_UNTIL, 0xFFFFFFFF, 0x7FFFFFFF), 2 ** 63 - 1, "no 8 ClockEnd")]:
            story, stops = self.at_end(words, "place 0 1", "run 0 9"), []
            story.end.clock = clock or story.end.clock
            story.stop = lambda: stops.append(story.position)
            self.assertEqual((story.live(5).splitlines()[:2], stops), (["events made: 0", reason], [(2, 0)]))


class Scripts(WithKeys):
    """What is asked, and the answers that are expected, by which all that tells where a session stands is compared."""

    def setUp(self):
        super().setUp()
        self.script = Script(Random(1), Story(recording_of([(2, load()), (1, load())], threads=1)))
        self.script.written = lambda command: command

    def moves(self, motion):
        """Behind such a motion."""
        while self.script.asked[-2][0] != motion:
            self.script.motion()

    def test_stops(self):
        """Behind going somewhere, and behind an event or a turn, it is asked why the session stands, and for registers of the thread that is named."""
        self.script.go((3, 1))
        *asked, (packet, (told, registers)) = self.script.asked
        self.assertEqual(asked, [(monitor("goto 3+1"), ("event 3+1, from 0 to 6\n", "OK")), ("?", ("", "T05thread:2;"))])
        self.assertEqual((packet, told, len(registers), registers[-8:]), ("g", "", 8 * 33, "30100000"))
        self.script.line = lambda: "tick 1"
        self.script.event()
        self.assertEqual(self.script.asked[3:], [(monitor("event tick 1"), (NOT_AT_END + "\n", "OK")), ("?", ("", "T05thread:2;"))])
        self.script.goto_end()
        self.script.event()
        made = monitor("event tick 1"), ("event 7, from 0 to 7, recorded to 6\n", "OK")
        self.assertEqual(self.script.asked[8:10], [made, ("?", ("", "T05thread:2;"))])
        self.assertEqual((len(self.script.asked), self.script.asked[10][1][1][-8:]), (11, "38100000"))
        self.script.live()
        self.assertEqual(self.script.asked[-2], ("?", ("", "T05thread:2;")))

    def test_stops_that_stay(self):
        """What makes nothing before the end of the history is no stop, and the last one is told as it was, also behind a cut."""
        self.script.line = lambda: "run 0 0"
        self.script.go((3, 1))
        self.moves("bc")
        began = "", "T05replaylog:begin;thread:1;"
        for ask, told in ((self.script.live, f"events made: 0\n{NOT_AT_END}\nevent 0, from 0 to 6\n"), (self.script.event, "no 34 Range\n")):
            ask()
            self.assertEqual([answer for _, answer in self.script.asked[-2:]], [(told, "OK"), began])
        self.script.fork()
        self.script.event()
        self.assertEqual(self.script.asked[-1], ("?", began))

    def test_stop_without_events(self):
        """At the end `live` makes a plain stop of one that told the end, where it makes nothing; an event that isn't made makes none."""
        self.script = Script(Random(1), story_of(call_words(Call.EXIT, 0), "place 0 1", "run 0 9"))
        self.script.line = lambda: "tick 1"
        self.script.go((1, 1))
        self.moves("vCont;c")
        self.script.event()
        self.assertEqual([answer for _, answer in self.script.asked[-2:]], [("no 1 Ended\n", "OK"), ("", "T05replaylog:end;thread:1;")])
        self.script.live()
        made = "events made: 0\nthe program has ended\nevent 2, from 0 to 2\n", "OK"
        self.assertEqual([answer for _, answer in self.script.asked[-3:-1]], [made, ("", "T05thread:1;")])
        self.assertEqual((self.script.asked[-1][0], self.script.asked[-1][1][1][-8:]), ("g", "0c100000"))

    def test_nowhere(self):
        self.script.go((3, 1))
        self.script.goto_nowhere()
        self.assertEqual(self.script.asked[-1][1], ("no such position\nevent 3+1, from 0 to 6\n", "OK"))

    def test_motions(self):
        """At an end of the history the thread of the stop before is named."""
        self.script.go((3, 1))
        self.moves("vCont;c")
        self.assertEqual(self.script.asked[-2:], [("vCont;c", ("", "T05replaylog:end;thread:2;")),
                                                  (monitor("events"), ("event 6, from 0 to 6\n", "OK"))])

    def test_ender(self):
        """After the end of a program a motion on names the thread that ended it."""
        self.script = Script(Random(1), Story(recording_of([(2, call(Call.EXIT, 0))], threads=1)))
        self.script.go((0, 0))
        self.assertEqual(self.script.asked[-2], ("?", ("", "T05thread:1;")))
        self.moves("vCont;c")
        self.assertEqual(self.script.asked[-2], ("vCont;c", ("", "T05replaylog:end;thread:2;")))

    def test_answers(self):
        case = LivedCase(b"", [], [("?", ("", "T05thread:2;")), ("bc", ("", "T05replaylog:begin;thread:9;")), ("g", ("", "00"))])
        right = [("", "OK"), ("", "T05thread:2;"), ("", "T05replaylog:begin;thread:9;"), ("", "00"), (LISTED, "OK"), ("", "OK")]
        self.assertIsNone(difference_of_answers(case, right, Counter()))
        for place, wrong in [(1, ("", "T05thread:1;")), (1, ("x", "T05thread:2;")), (2, ("", "T05thread:9;")), (2, ("", "T05replaylog:begin;thread:2;")),
                             (3, ("", "01")), (0, ("", "E01")), (4, ("", "E01")), (4, ("", "OK")), (5, ("", "E01"))]:
            self.assertIsNotNone(difference_of_answers(case, [*right[:place], wrong, *right[place + 1:]], Counter()), place)
        self.assertIsNotNone(difference_of_answers(case, right[:-1], Counter()))
