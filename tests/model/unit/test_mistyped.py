"""What is mistyped behind `monitor`: which line each text gets, by hand, and that nothing comes of it in a session."""
import unittest
from collections import Counter
from random import Random

from cases.debugged import DebuggedCase, Outcome, difference_of_outcomes, outcome_of_model, packets_of
from cases.lived import LivedCase, Script, difference_of_answers
from cases.mistakes import drawn_mistake, spelled
from cases.moved import MovedCase, expected_motions, steps_of, with_mistakes
from cases.moved import packets_of as packets_of_moved
from cases.stepped import Way
from model.mistyped import LIST, answer_to, is_list, kinds_of_mistakes, line_of_mistake, list_of, text_of_packet, with_list, with_lists
from model.motions import END, Stops
from model.stories import Story
from model.stubs import Look, Visits, monitor
from model.switches import switched
from unit.test_begun import PLACE, disk_with
from unit.test_races import load, recording_of

POSITION = "no position: it is K or K+S in decimal, as in monitor goto 767+2"
NUMBER = "no number from 1 to 4294967295, as in monitor limit 1000000"
BEHIND = "nothing goes behind this command"
COMMAND = "no such command"
RIGHT = ["", "events", "inspect", "fork", "help", "goto 0", "goto 767+2", "goto 767+0", "until 007+002", "goto 18446744073709551615+4294967295",
         "until 000018446744073709551615", "limit 1", "limit 4294967295", "live 0000000000000001", "live 00004294967295", "event", "event ",
         "event jump", "event tick 1"]
WRONG = {
    POSITION: ["goto", "until", "goto ", "until  ", "goto  5", "goto 5 ", "goto 5 6", "goto x", "goto 5x", "goto -1", "goto -0", "goto 5+-0",
               "goto +", "goto 5+", "goto 5+x", "goto 5++", "goto 5+6+7", "goto 5+-6", "goto 5 +6", "goto 5+ 6", "goto 5+6 ", "goto 5.0",
               "goto 0x5", "goto 1_000", "goto 5\n", "goto \t5", "goto 18446744073709551616", "goto 18446744073709551616+1", "goto 5+4294967296",
               "until 0+99999999999999999999999", "goto \u0663", "goto 5+\u0663", "until \u00b2", "goto all", "goto 767,2"],
    NUMBER: ["limit", "live", "limit ", "limit  5", "live 5 ", "limit 5 6", "live 5+6", "limit x", "limit 0", "live 0", "limit 000",
             "limit 4294967296", "live 4294967296", "limit 99999999999999999999", "limit -1", "limit 1_000", "limit 5\n", "limit 0x5",
             "live \u0663", "limit 1.5", "live all", "limit ++5"],
    BEHIND: ["events ", "inspect ", "fork ", "help ", "events 5", "inspect all", "fork 13+30", "fork  ", "help me", "help fork", "events \u00e9"],
    COMMAND: [" ", "  ", "x", "Events", "GOTO 5", "go 5", "gotos 5", "goto5", "goto+5", "goto\t5", "limit\t5", "limits", "fork3", "fork\n",
              "fork\t", "events\0", " events", " goto x", "\tfork", "event\ttick 1", "eventtick 1", "tick 1", "commit", "quit", "monitor events",
              "h", "?", "\u00e9vents", "event\n"]}
NOT_UTF8 = [b"\xff", b"events\xff", b"events \xff", b"fork \x80", b"goto \xff", b"goto 5\xff", b"limit \xe2\x82", b"live 5 \xff", b"event \xff",
            b"event tick 1\xff", b"help \xc0\x80", b"events \xed\xa0\x80", b"goto \xf4\x90\x80\x80", b"\xed\xa0\x80", b"\xf4\x90\x80\x80"]
LISTED = "events, inspect: where\ngoto until limit fork event live\n"


class WithKeys(unittest.TestCase):
    def setUp(self):
        switch = switched(keys=True, long_runs=True)
        switch.__enter__()
        self.addCleanup(switch.__exit__, None, None, None)


class Lines(WithKeys):
    def test_right(self):
        for text in RIGHT:
            self.assertIsNone(line_of_mistake(text.encode()), text)

    def test_wrong(self):
        for line, texts in WRONG.items():
            for text in texts:
                self.assertEqual(line_of_mistake(text.encode()), line, repr(text))

    def test_not_utf8(self):
        """None of these is a command, whatever its name is."""
        for text in NOT_UTF8:
            self.assertEqual(line_of_mistake(text), COMMAND, text)

    def test_answers(self):
        """The list behind the line, and alone where it is asked for; nothing is told of a text that is too long."""
        self.assertEqual(answer_to(b"goto"), (POSITION + "\n" + LIST, "OK"))
        self.assertEqual([answer_to(text) for text in (b"", b"help")], [(LIST, "OK")] * 2)
        self.assertEqual([answer_to(b"x" * length) for length in (256, 257)], [(COMMAND + "\n" + LIST, "OK"), ("", "E01")])
        self.assertEqual([answer_to(text) for text in (b"limit " + b"0" * 251, b"help" + b" " * 253)], [("", "E01")] * 2)
        for text in (b"events", b"inspect", b"fork", b"goto 9", b"until 9", b"limit 9", b"live 9", b"event tick 1"):
            self.assertIsNone(answer_to(text), text)

    def test_events(self):
        """A line that is no event's has its own line, without the list."""
        for text, told in [("event", "no 31 Unknown"), ("event ", "no 31 Unknown"), ("event jump", "no 31 Unknown"), ("event quit", "no 31 Unknown"),
                           ("event run 0 x", "no 32 Number"), ("event in 4", "no 33 Hex"), ("event tick 0", "no 34 Range"), ("event \u00e9", "no 31 Unknown"),
                           ("event " + "a" * 161, "no 35 TooLong"), ("event  tick x", "no 32 Number")]:
            self.assertEqual(answer_to(text.encode()), (told + "\n", "OK"), text)

    def test_plus(self):
        """One may stand before the digits of N and of S, and none before those of K."""
        for text, line in [(b"limit +5", None), (b"goto +5", POSITION), (b"goto 5++6", None), (b"live +0", NUMBER), (b"goto 5+6", None), (b"goto x++6", POSITION),
                           (b"limit ++5", NUMBER), (b"goto 5+", POSITION), (b"goto 5+++6", POSITION), (b"+limit 5", COMMAND)]:
            self.assertEqual(line_of_mistake(text), line, text)


class Lists(WithKeys):
    def test_lists(self):
        """Each command's name is in it; that of a session is what it tells first, and no other one is expected."""
        self.assertTrue(is_list(LISTED))
        for text in ("", LISTED[:-1], LISTED.replace("live", "lives"), LISTED.replace("fork ", "")):
            self.assertFalse(is_list(text), text)
        packets = ["?", monitor("help"), monitor("help")]
        self.assertEqual(list_of(packets, [("", ""), (LISTED, "OK"), ("x", "OK")]), LISTED)
        for got in ([], [("", ""), ("x", "OK"), (LISTED, "OK")], [("", ""), ("", "OK"), ("", "OK")]):
            self.assertEqual(list_of(packets, got), LIST)

    def test_expected(self):
        answer, listed = (f"a\n{LIST}", "OK"), (f"a\n{LISTED}", "OK")
        for expected, told in [(answer, listed), ((None, "OK"), (None, "OK")),
                               (("", "E01"), ("", "E01"))]:
            self.assertEqual(with_list(expected, LISTED), told)
        self.assertEqual(with_lists([monitor("help"), "x"], [(LIST, "OK"), answer], [(LISTED, "OK")] * 2), [(LISTED, "OK"), listed])

    def test_kinds(self):
        expected = [("", "OK"), (None, "OK"), answer_to(b"x"), answer_to(b"goto"), answer_to(b"help"), answer_to(b"event")]
        self.assertEqual(kinds_of_mistakes(expected), [("mistyped", COMMAND), ("mistyped", POSITION)])

    def test_texts(self):
        self.assertEqual([text_of_packet(packet) for packet in (monitor(b"goto \xff"), monitor("a"), "bc")], ["'goto \\xff'", "'a'", "bc"])


class Draws(WithKeys):
    def test_each_kind(self):
        """Each line comes up, and so do the list alone, an event's line, and texts that are too long."""
        chance, told = Random(1), Counter()
        for _ in range(600):
            packet, answer = drawn_mistake(chance)
            text = bytes.fromhex(packet[6:])
            self.assertEqual(answer_to(text), answer)
            told[answer[0].partition("\n")[0]] += 1
        for line in (POSITION, NUMBER, BEHIND, COMMAND, LIST.strip(), "no 31 Unknown", ""):
            self.assertGreater(told[line], 3, told)

    def test_no_events(self):
        """Where the run may not be replayed."""
        for seed in range(200):
            text = bytes.fromhex(drawn_mistake(Random(seed), is_event=False)[0][6:])
            self.assertNotEqual(text.split(b" ")[0], b"event")

    def test_spelled(self):
        """The same numbers, at times with zeros before them."""
        texts = [spelled(Random(seed), "goto 12+3") for seed in range(60)]
        self.assertEqual({tuple(int(number) for number in text[5:].split("+")) for text in texts}, {(12, 3)})
        self.assertTrue({"goto 12+3", "goto 012+3"} < set(texts))


class Sessions(WithKeys):
    """Behind what is mistyped a session answers as before."""

    def setUp(self):
        super().setUp()
        self.recording = recording_of([(2, load()), (1, load())], threads=1)
        self.mistakes = [(monitor(text), answer_to(text)) for text in (b"fork 3", b"goto", b"limit 0", b"x")]

    def test_looks(self):
        look = Look((0, 0), [1], [], self.mistakes[:2])
        self.assertEqual(look.packets()[1:5], ["?", self.mistakes[0][0], self.mistakes[1][0], monitor("events")])
        machine = self.recording.made_up_to(Visits([], (0, 0)))
        told, plain = (one.answers(machine, (0, 6), 1) for one in (look, Look((0, 0), [1], [])))
        self.assertEqual((told[:2], told[2:4], told[4:]), (plain[:2], [answer for _, answer in self.mistakes[:2]], plain[2:]))
        self.assertEqual((len(told), told[2][0]), (len(look.packets()), BEHIND + "\n" + LIST))

    def test_debugged(self):
        """The list is that of the session: a line in front of another list is a difference."""
        case = DebuggedCase(bytes(disk_with(PLACE)), [Look((0, 0), [], [], self.mistakes[:1])])
        expected, packets = outcome_of_model(case), packets_of(case)
        self.assertEqual((len(packets), packets[1], packets[4]), (len(expected.answers), monitor("help"), self.mistakes[0][0]))
        got = Outcome([with_list(answer, LISTED) for answer in expected.answers], "+")
        self.assertIsNone(difference_of_outcomes(packets, expected, got))
        for place, wrong in [(4, (BEHIND + "\n", "OK")), (4, (LISTED, "OK")), (4, (COMMAND + "\n" + LISTED, "OK")), (4, ("", "E01")), (1, ("", "OK"))]:
            answers = [*got.answers]
            answers[place] = wrong
            self.assertIsNotNone(difference_of_outcomes(packets, expected, Outcome(answers, "+")), wrong)

    def test_refused(self):
        """What is mistyped is no first motion: the list is told, and the motion behind that ends the session."""
        case = DebuggedCase(bytes(disk_with(b"\x02\x00\x01\x00")), first_looks=[Look((0, 0), [], [], self.mistakes)], makers=["bc"])
        outcome = outcome_of_model(case)
        self.assertEqual((packets_of(case)[3:7], packets_of(case)[-3:]), ([packet for packet, _ in self.mistakes], [monitor("help"), "bc", "D"]))
        self.assertEqual((outcome.answers[3:7], outcome.answers[-1], outcome.status), ([answer for _, answer in self.mistakes], (LIST, "OK"), 1))

    def test_moved(self):
        """No motion: the place stays, and so does the thread that the last stop named."""
        ways = [((3, 1), [self.mistakes[0][0], "vCont;c", *[packet for packet, _ in self.mistakes], "vCont;c"])]
        case = MovedCase(b"", Stops([], []), ways)
        expected = expected_motions(case, self.recording)
        self.assertEqual(len(expected), len(packets_of_moved(case)))
        self.assertEqual(expected[2:4], [self.mistakes[0][1], ("event 3+1, from 0 to 6\n", "OK")])
        self.assertEqual(expected[6:14:2], [answer for _, answer in self.mistakes])
        self.assertEqual(expected[7:15:2], [("event 6, from 0 to 6\n", "OK")] * 4)
        self.assertEqual(expected[4], expected[14])
        self.assertEqual((expected[4], expected[-2:]), (("", END + "thread:2;"), [(LIST, "OK"), ("", "OK")]))

    def test_drawn_ways(self):
        """The motions stay, in their order, and some have mistakes before them."""
        motions = ["vCont;c", "bc", "bc", "vCont;c"] * 5
        drawn = with_mistakes(Random(1), motions)
        self.assertEqual([packet for packet in drawn if not packet.startswith("qRcmd")], motions)
        self.assertGreater(len(drawn), len(motions) + 3)

    def test_stepped(self):
        way = Way(Random(1), self.recording, steps_of(self.recording), Stops([], []))
        way.place, way.until, way.limit, way.named = (3, 1), (3, 2), 7, 2
        for _ in range(40):
            way.mistype()
            packet, answers = way.asked[-1]
            self.assertEqual(answers, answer_to(bytes.fromhex(packet[6:])))
        self.assertEqual((way.place, way.until, way.limit, way.named, len(way.asked)), ((3, 1), (3, 2), 7, 2, 40))

    def test_lived(self):
        script = Script(Random(1), Story(self.recording))
        script.go((3, 1))
        for _ in range(40):
            script.mistype()
            (packet, answer), (asked, told) = script.asked[-2:]
            self.assertEqual((answer, asked), (answer_to(bytes.fromhex(packet[6:])), monitor("events")))
            self.assertEqual(told, ("event 3+1, from 0 to 6\n", "OK"))

    def test_answers(self):
        """Of a session that goes another way on, too; the table has the line once."""
        case, tally = LivedCase(b"", [], [self.mistakes[0]]), Counter()
        right = [("", "OK"), (BEHIND + "\n" + LISTED, "OK"), (LISTED, "OK"), ("", "OK")]
        self.assertIsNone(difference_of_answers(case, right, tally))
        self.assertEqual(tally, Counter({("mistyped", BEHIND): 1}))
        for place, wrong in [(1, (BEHIND + "\n", "OK")), (1, (COMMAND + "\n" + LISTED, "OK")), (1, (LISTED, "OK")), (2, ("", "OK")), (2, (LISTED + "x\n", "OK"))]:
            self.assertIsNotNone(difference_of_answers(case, [*right[:place], wrong, *right[place + 1:]], Counter()), wrong)
