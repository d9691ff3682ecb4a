"""Where sessions of `ckrt debug` begin, what they tell then, and how those of disks with wrong events end; by hand."""
import unittest
from collections import Counter
from random import Random

from cases.damage import RefusedEvent, batch, refuse_event
from cases.debugged import (DebuggedCase, Outcome, difference_of_outcomes, disk_with_older, drawn_makers, kind_of_history, kind_of_outcome,
                            outcome_of_model, packets_of)
from cases.histories import disk_with_stretches
from cases.kinds import Case, case_of
from cases.older_areas import MisleadingArea, fits_older, mislead
from model.abi import Call
from model.assembler import STOP, image_of
from model.begun import LOW, Begun, makes_events
from model.devices import MemoryDisk
from model.events import Place, Run, Tick
from model.layout import HEADER_AT, Header, format_disk, header_of
from model.lines import serve_disk
from model.recovery import Unrecovered, recover, saved_in
from model.stretches import Recording
from model.stubs import Look, Visits, monitor, registers_text
from model.switches import switched
from model.tables import encode_tables
from unit.test_call_lines import GETS, LED, TwoAreas
from unit.test_races import call
from unit.test_rows import JOINS, PUTS_A, SMALL

IDLE, PLACE, RUN, TICK = Run(0, 1).encoding(), Place(0, 1).encoding(), Run(0, 9).encoding(), Tick(1).encoding()
LEAVE = ("", "OK")
OLDER, NEWER = SMALL.journal_at(0), SMALL.journal_at(1)
DIFFERS = "ckrt: OlderDiffers"
ALL_MAKERS = ["vCont;c", "vCont;s:1", "vCont;r1000,2000:1", "bs", "bc",
              *[monitor(text) for text in ("goto 2", "until 2", "fork", "live 1", "event tick 1")]]


def disk_with(*batches, gate_behind=b"\0", image=image_of([*call(Call.SELF), STOP])):
    """Whose journal has just these batches."""
    disk = format_disk(SMALL, image)
    chain = b"".join(batch(events, b"") for events in batches) + gate_behind
    at = SMALL.journal_at(0)
    disk[at:at + len(chain)] = chain
    return disk


def with_counts(disk, area=0, **fields):
    device = MemoryDisk(disk)
    device.write(SMALL.area_at(area) + HEADER_AT, Header(**{**vars(header_of(device, SMALL, area)), **fields}).encoding())
    return disk


def of_two_areas(words, *lines, behind=()):
    disk = format_disk(SMALL, words)
    serve_disk(disk, "\n".join([*lines, "commit", "checkpoint", *behind, "commit", ""]).encode())
    return bytes(disk)


def with_register(areas, area):
    """Of thread 1."""
    machine = saved_in(areas.disk, SMALL, area).machine
    machine.threads[1].registers[5] ^= 1
    return areas.put(SMALL.tables_at(area), encode_tables(machine, b""))


class WithKeys(unittest.TestCase):
    def setUp(self):
        switch = switched(keys=True, long_runs=True)
        switch.__enter__()
        self.addCleanup(switch.__exit__, None, None, None)

    def begins(self, disk, ends, fault):
        """How many events led to the begin of the history, to the checkpoint and to the end."""
        begun = Begun(disk)
        self.assertEqual(((begun.first, begun.checkpoint, begun.whole), begun.fault), (ends, fault))
        return begun

    def begins_nowhere(self, disk, fault="Damaged"):
        with self.assertRaises(Unrecovered) as raised:
            Begun(disk)
        self.assertEqual(str(raised.exception), fault)


class Beginnings(WithKeys):
    def test_accepted(self):
        self.begins(disk_with(), (0, 0, 0), None)
        self.begins(disk_with(PLACE, IDLE), (0, 0, 2), None)

    def test_refused(self):
        """All events of the journal are counted, also those behind the one that is refused; none is made."""
        self.begins(disk_with(IDLE), (0, 0, 1), "Damaged")
        begun = self.begins(disk_with(PLACE, IDLE + PLACE + PLACE, IDLE), (0, 0, 5), "Damaged")
        self.assertEqual((begun.machine.harts[0], begun.machine.threads[1].pc, begun.is_refused), (0, 0x1000, True))
        self.begins(disk_with(PLACE + RUN + TICK, image=image_of(call(Call.EXIT, 0))), (0, 0, 3), "Damaged")

    def test_other_damage(self):
        """With a refused event and without one."""
        for gate_behind in (b"\xa5\0\0", b"\xa5\x01\0\x09\0"):
            for batches in ([PLACE], [IDLE]):
                self.begins_nowhere(disk_with(*batches, gate_behind=gate_behind))
        self.begins_nowhere(disk_with(IDLE + b"\x05\0\0\0\0"))
        disk = disk_with(IDLE)
        disk[SMALL.tables_at(0)] ^= 255
        disk[SMALL.tables_at(0) + 7] = 128
        self.begins_nowhere(disk)
        disk[0] = 0
        self.begins_nowhere(disk, "NotFormatted")

    def test_counts(self):
        """Where they are high all events in use are made before; so a refused one is found out, and one that would lead to a count too high."""
        for name in ("events", "offset"):
            self.assertEqual(Begun(with_counts(disk_with(IDLE), **{name: LOW - 20_000})).fault, "Damaged")
            self.begins_nowhere(with_counts(disk_with(IDLE), **{name: LOW + 20_000}))
            self.assertIsNone(Begun(with_counts(disk_with(PLACE), **{name: LOW + 20_000})).fault)
            self.begins_nowhere(with_counts(disk_with(PLACE, IDLE), **{name: 2 ** 62 - 1}))
        self.assertEqual(LOW, 2 ** 61)


class OlderAreas(WithKeys):
    """Where one fits the session begins with it, and its events may end it."""

    def test_leads(self):
        """The machine is that of the older area."""
        begun = self.begins(TwoAreas().disk.bytes, (0, 2, 3), None)
        self.assertEqual((begun.machine.threads[1].pc, begun.machine.input, begun.is_refused), (0x1000, [], False))
        for chain in (batch(PLACE + RUN), batch(PLACE, b"") + batch(RUN), batch(PLACE + Run(0, 8).encoding())):
            self.begins(TwoAreas().put(OLDER, chain).disk.bytes, (0, 2, 3), None)
        self.begins(TwoAreas().tables(0, b"output").disk.bytes, (0, 2, 3), None)
        self.begins(TwoAreas(*LED, "checkpoint", "checkpoint").disk.bytes, (3, 3, 3), None)

    def test_fits_and_differs(self):
        """Memory, a register, or the clock, of either area; other events, of the same number; refused ones."""
        for area in (0, 1):
            for changed in (TwoAreas().flip(SMALL.page_at(area, 16) - 1), with_register(TwoAreas(), area), TwoAreas().flip(SMALL.tables_at(area))):
                begun = self.begins(changed.disk.bytes, (0, 2, 3), "OlderDiffers")
                self.assertFalse(begun.is_refused)
        for events in (PLACE + IDLE, PLACE + TICK, TICK + PLACE, IDLE + PLACE, PLACE + Place(7, 1).encoding()):
            self.begins(TwoAreas().put(OLDER, batch(events)).disk.bytes, (0, 2, 3), "OlderDiffers")

    def test_refused_where_the_count_fits(self):
        """The state would fit, but the last event of the older journal comes behind the program's end."""
        disk = MemoryDisk(bytearray(of_two_areas(PUTS_A, "place 0 1", "run 0 6")))
        disk.write(OLDER, batch(PLACE + Run(0, 6).encoding() + IDLE))
        self.begins(with_counts(disk.bytes, 1, events=3), (0, 3, 3), "OlderDiffers")

    def test_refused_in_use(self):
        """Whether the older area leads to the checkpoint or not."""
        refused = batch(IDLE + TICK)
        begun = self.begins(TwoAreas().put(NEWER, refused).disk.bytes, (0, 2, 4), "OlderDiffers")
        self.assertEqual((begun.machine.threads[1].pc, begun.is_refused), (0x1000, True))
        self.begins(TwoAreas().put(NEWER, refused).flip(SMALL.page_at(0, 1)).disk.bytes, (0, 2, 4), "OlderDiffers")

    def test_none_fits(self):
        """Then a refused event in use is Damaged, and what is wrong with the older area no fault."""
        for areas in (TwoAreas().put(SMALL.area_at(0), [0]), TwoAreas().header(0, generation=3).header(1, generation=5), TwoAreas().header(0, events=1),
                      TwoAreas().header(1, events=3).header(0, events=0), TwoAreas().put(OLDER, batch(PLACE)), TwoAreas().put(OLDER, batch(PLACE + RUN + TICK)),
                      TwoAreas().put(OLDER, batch(PLACE + RUN, b"\xa5\0\0")), TwoAreas().put(OLDER, [0]), TwoAreas().header(0, version=3),
                      TwoAreas().header(0, offset=2 ** 62), TwoAreas().flip(SMALL.tables_at(0) + 175)):
            saved = recover(MemoryDisk(bytearray(areas.disk.bytes))).events - 1
            begun = self.begins(areas.disk.bytes, (saved, saved, saved + 1), None)
            self.assertEqual(begun.machine.threads[1].pc, 0x1008)
            self.begins(areas.put(NEWER, batch(IDLE)).disk.bytes, (saved, saved, saved + 1), "Damaged")

    def test_high_events(self):
        """Those at the checkpoint count, and neither those of the older area nor those behind the checkpoint. Where they are high, all are made
        before: an older area that leads elsewhere is no part of the history, and a refused event in use is Damaged."""
        for saved in (2 ** 61 - 2, 2 ** 61 - 1, 2 ** 61, 2 ** 61 + 1, 2 ** 61 + 20_000):
            self.begins_by_counts(saved >= 2 ** 61, saved, (0, {"events": saved - 2}), (1, {"events": saved}))

    def test_high_output(self):
        """That at the checkpoint, and not that of the older area. None is held."""
        for output in (2 ** 61 - 1, 2 ** 61, 2 ** 61 + 20_000):
            self.begins_by_counts(output >= 2 ** 61, 2, (1, {"offset": output}))
            self.begins_by_counts(False, 2, (0, {"offset": output}))

    def test_held_output(self):
        """Held bytes don't count, and those before them do."""
        for offset, is_high in ((2 ** 61 - 6, False), (2 ** 61 - 1, False), (2 ** 61, True)):
            misled = TwoAreas().tables(1, b"123456").header(1, offset=offset).flip(SMALL.page_at(0, 1))
            self.begins(misled.disk.bytes, *(((2, 2, 3), None) if is_high else ((0, 2, 3), "OlderDiffers")))

    def begins_by_counts(self, is_high, saved, *headers):
        """With so many events at the checkpoint. The older area has two less, and one is in use."""
        def areas():
            changed = TwoAreas()
            for area, fields in headers:
                changed.header(area, **fields)
            return changed

        older, newer = ((saved - 2, saved, saved + 1), "OlderDiffers"), ((saved, saved, saved + 1), None)
        begun = self.begins(areas().disk.bytes, older[0], None)
        self.assertEqual(begun.machine.threads[1].pc, 0x1000)
        for misled in (areas().flip(SMALL.page_at(0, 1)), areas().put(OLDER, batch(PLACE + IDLE))):
            begun = self.begins(misled.disk.bytes, *(newer if is_high else older))
            self.assertEqual((begun.machine.threads[1].pc, begun.is_refused), (0x1008 if is_high else 0x1000, False))
        for refused in (areas().put(NEWER, batch(IDLE)), areas().flip(SMALL.page_at(0, 1)).put(NEWER, batch(IDLE))):
            if is_high:
                self.begins_nowhere(refused.disk.bytes)
            else:
                self.begins(refused.disk.bytes, *older)


class Makers(WithKeys):
    def test_each(self):
        for packet in ALL_MAKERS:
            self.assertTrue(makes_events(packet), packet)
        for packet in ("?", "g", "m2000,4", "Hg1", "Hc1", "T1", "qfThreadInfo", "Z0,1000,4", "z2,2000,4", "vCont?", "M2000,1:00", "vRun;00", "D", "QStartNoAckMode",
                       *[monitor(text) for text in ("events", "inspect", "limit 7", "help", "", "x", "goto", "goto x", "until 5+", "fork ", "events 5", "live 0", "limit",
                                                    b"events\xff", "goto " + "0" * 300)]):
            self.assertFalse(makes_events(packet), packet)

    def test_drawn(self):
        """Each of those that are drawn to end a session makes the events."""
        drawn = {packet for seed in range(200) for packet in drawn_makers(Random(seed), (0, 2, 3))}
        self.assertTrue(all(makes_events(packet) for packet in drawn))
        self.assertGreater(len(drawn), 14)


class Sessions(WithKeys):
    def setUp(self):
        super().setUp()
        self.disk = bytes(disk_with(PLACE, IDLE + PLACE))
        self.looks = [Look((0, 0), [2, 1, 2], [(0x1000, 4)])]

    def case(self, *makers, disk=None, **more):
        return DebuggedCase(disk or self.disk, [], [], self.looks, [], list(makers), **more)

    def test_looks(self):
        """Those of the state before the first event, with a plain stop; a thread that isn't there leaves examined whom it was."""
        answers = outcome_of_model(self.case("vCont;c")).answers
        self.assertEqual((answers[:2], answers[3]), ([LEAVE, ("", "T05thread:1;")], ("event 0, from 0 to 3\n", "OK")))
        self.assertEqual(answers[4][0].splitlines()[:4], ["events 0", "clock 0", "status running", "hart 0 idle"])
        self.assertEqual(answers[5:9], [("", "m1"), ("", "E01"), ("", "E01"), ("", "E01")])
        self.assertEqual(answers[10:13], [("", "OK"), ("", b"ready".hex()), ("", "OK")])
        self.assertEqual({answers[place] for place in (2, 9, 13, 17)}, {answers[9]})
        self.assertEqual((len(answers), answers[9][1][-8:], answers[18][1]), (20, "00100000", image_of(call(Call.SELF))[:4].hex()))
        self.assertEqual(self.looks[0].first_packets()[:5], ["?", "g", monitor("events"), monitor("inspect"), "qfThreadInfo"])

    def test_examined(self):
        """One look behind another begins with whom gdb has named last of those that are there."""
        self.looks = [Look((0, 0), [1, 9], []), Look((0, 0), [9], [])]
        answers = outcome_of_model(self.case("bc")).answers
        self.assertEqual((len(answers), answers[-2], answers[9][1][-8:]), (24, answers[9], "00100000"))

    def test_ends(self):
        """By the first packet that makes the events, whose sign is the last that is told; else as gdb leaves."""
        misled, refused = TwoAreas().flip(SMALL.page_at(0, 1)).disk.bytes, TwoAreas().put(NEWER, batch(IDLE)).disk.bytes
        for disk, fault in ((self.disk, "ckrt: Damaged"), (bytes(misled), DIFFERS), (bytes(refused), DIFFERS)):
            for makers in ((), *[(maker,) for maker in ALL_MAKERS], ("bc", "vCont;c"), (monitor("fork"), "?")):
                status, told, more = (1, fault, 0) if makers else (0, "", 1)
                outcome = outcome_of_model(self.case(*makers, disk=disk))
                self.assertEqual((outcome.status, outcome.fault, outcome.signs, len(outcome.answers)), (status, told, "+", 20 + more))
                outcome = outcome_of_model(self.case(*makers, disk=disk, is_acknowledged=True))
                self.assertEqual((outcome.status, outcome.fault, outcome.signs, len(outcome.answers)), (status, told, "+" * 20, 19 + more))

    def test_events(self):
        """Before they are made it is told which there are, of the older area that fits too, whatever becomes of it."""
        for areas, told in ((TwoAreas().flip(SMALL.page_at(0, 1)), "0, from 0 to 3"), (TwoAreas().put(NEWER, batch(IDLE + TICK)), "0, from 0 to 4"),
                            (TwoAreas().put(NEWER, batch(IDLE)).put(SMALL.area_at(0), [0]), "2, from 2 to 3")):
            self.looks = [Look((int(told[0]), 0), [], [])]
            outcome = outcome_of_model(self.case("bc", disk=bytes(areas.disk.bytes)))
            self.assertEqual((outcome.answers[3], outcome.status), ((f"event {told}\n", "OK"), 1))

    def test_lines(self):
        """What the page tells of a fault stands at its line's end."""
        misled = bytes(TwoAreas().flip(SMALL.page_at(0, 1)).disk.bytes)
        self.assertEqual(outcome_of_model(self.case("bc", disk=misled)).line, "its older journal doesn't lead to its last checkpoint, or it is "
                                                                              "damaged; `ckrt inspect` tells: where it prints `events K`, give --at K")
        for case in (self.case("bc"), self.case(disk=misled), self.case(disk=misled, at=0), self.case(at=0)):
            self.assertEqual(outcome_of_model(case).line, "")

    def test_none(self):
        """With a position to begin at, where an event in use is refused, and of a disk that is damaged otherwise."""
        broken = bytes(disk_with(IDLE, gate_behind=b"\xa5\0\0"))
        refused = bytes(TwoAreas().put(NEWER, batch(IDLE)).disk.bytes)
        for case in [self.case("bc", at=0), self.case(at=3), self.case(at=4), self.case("bc", disk=broken), *[self.case(disk=refused, at=at) for at in (0, 2, 9)]]:
            self.assertEqual(outcome_of_model(case), Outcome([], "", 1, "ckrt: Damaged"))
        self.assertEqual(outcome_of_model(self.case(disk=bytes(4096))), Outcome([], "", 1, "ckrt: NotFormatted"))

    def test_settings(self):
        case = self.case("bc")
        case.settings = [("Hc1", "", "OK"), (monitor("limit 7"), "limit 7\n", "OK")]
        self.assertEqual(packets_of(case)[-5:], ["Hc1", monitor("limit 7"), monitor("help"), "bc", "D"])
        self.assertEqual(outcome_of_model(case).answers[-3:-1], [("", "OK"), ("limit 7\n", "OK")])

    def test_unlike(self):
        """A session that is refused at once, or goes on; another name or status; another line, sign or answer."""
        for disk in (self.disk, bytes(TwoAreas().flip(SMALL.page_at(0, 1)).disk.bytes)):
            case = self.case("bc", disk=disk)
            expected, packets = outcome_of_model(case), packets_of(case)
            right, answers = vars(expected), expected.answers
            for line in (expected.line, "ckrt: a.disk: " + expected.line):
                self.assertIsNone(difference_of_outcomes(packets, expected, Outcome(**{**right, "line": line})))
            for changed in [{"answers": [], "signs": ""}, {"answers": [*answers, ("", "T05replaylog:begin;thread:1;")]}, {"fault": "ckrt: Refused"},
                            {"status": 0, "fault": "", "answers": [*answers, LEAVE]}, {"status": 0}, {"fault": ""}, {"signs": "++"}, {"signs": ""},
                            {"answers": answers[:-1]}, {"answers": [("", "E01"), *answers[1:]]}, *[{"line": line} for line in ("", "x") if expected.line]]:
                self.assertIsNotNone(difference_of_outcomes(packets, expected, Outcome(**{**right, **changed})), changed)

    def test_kinds(self):
        misled = bytes(TwoAreas().flip(SMALL.page_at(0, 1)).disk.bytes)
        cases = [self.case(), self.case("bc"), self.case(at=0), self.case(monitor("fork"), disk=misled), self.case(monitor("goto 3"), disk=misled),
                 self.case(disk=misled, at=0)]
        self.assertEqual([kind_of_outcome(case, outcome_of_model(case)) for case in cases],
                         ["shown before a motion", "Damaged by a motion", "Damaged", "OlderDiffers by fork", "OlderDiffers by goto", "Range"])
        disks = [self.disk, misled, bytes(TwoAreas().put(NEWER, batch(IDLE)).disk.bytes), bytes(TwoAreas().disk.bytes), bytes(disk_with()), bytes(9)]
        self.assertEqual([kind_of_history(disk) for disk in disks],
                         ["Damaged, an event in use", "OlderDiffers, the older journal", "OlderDiffers, an event in use", "from the older area", "from the checkpoint",
                          "none"])


class Recovered(WithKeys):
    """Sessions that gdb ends."""

    def test_places(self):
        case = DebuggedCase(bytes(disk_with(PLACE)), [Look((1, 0), [], []), Look((0, 0), [], [])], [(1, 1)])
        outcome = outcome_of_model(case)
        self.assertEqual((outcome.status, outcome.fault, len(outcome.answers), len(packets_of(case))), (0, "", 14, 14))
        self.assertEqual(outcome.answers[2:4], [("event 1, from 0 to 1\n", "OK"), ("", "T05thread:1;")])
        self.assertEqual(outcome.answers[12], ("no such position\nevent 0, from 0 to 1\n", "OK"))

    def test_older_area(self):
        """The session stands before its first event."""
        events = monitor("events")
        case = DebuggedCase(bytes(TwoAreas().disk.bytes), [Look((2, 0), [], [])], [(3, 1)], [Look((0, 0), [], [])], makers=[events, events])
        answers = outcome_of_model(case).answers
        self.assertEqual((len(answers), answers[4][0].splitlines()[0]), (len(packets_of(case)), "events 0"))
        self.assertEqual(answers[7:10], [("event 0, from 0 to 3\n", "OK")] * 2 + [("event 2, from 0 to 3\n", "OK")])
        self.assertEqual(answers[-2], ("no such position\nevent 2, from 0 to 3\n", "OK"))
        stays = outcome_of_model(DebuggedCase(case.contents, [], [(3, 1)])).answers[-2]
        self.assertEqual(stays, ("no such position\nevent 0, from 0 to 3\n", "OK"))

    def test_high_counts(self):
        """The older area leads elsewhere. Just below it ends the session, and from there on a motion is made from the checkpoint."""
        for offset, is_high in ((2 ** 61 - 1, False), (2 ** 61, True)):
            contents = bytes(TwoAreas().flip(SMALL.page_at(0, 1)).header(1, offset=offset).disk.bytes)
            outcome = outcome_of_model(DebuggedCase(contents, [Look((3, 0), [], [])], makers=[monitor("events")]))
            self.assertEqual((outcome.status, outcome.fault), (0, "") if is_high else (1, DIFFERS))
            self.assertEqual(outcome.answers[2:4], [("event 2, from 2 to 3\n", "OK"), ("event 3, from 2 to 3\n", "OK")] if is_high else [])
            self.assertEqual(kind_of_history(contents), "from the checkpoint" if is_high else "OlderDiffers, the older journal")
            # With `--at` it begins at the checkpoint for any counts.
            at = outcome_of_model(DebuggedCase(contents, makers=[monitor("events")], at=2))
            self.assertEqual((at.fault, at.answers[2]), ("", ("event 2, from 2 to 3\n", "OK")))

    def test_none_that_fits(self):
        for areas in (TwoAreas().put(SMALL.area_at(0), [0]), TwoAreas().put(OLDER, batch(PLACE))):
            answers = outcome_of_model(DebuggedCase(bytes(areas.disk.bytes), makers=[monitor("events")])).answers
            self.assertEqual(answers[2], ("event 2, from 2 to 3\n", "OK"))

    def test_threads_of_the_older_area(self):
        """Thread 2 isn't there yet, but at the checkpoint, where no older area fits."""
        disk = of_two_areas(JOINS, "place 0 1", "run 0 99", behind=["place 0 2", "run 0 9"])
        without = MemoryDisk(bytearray(disk))
        without.write(SMALL.area_at(0), [0])
        for contents, text in ((disk, "isn't there"), (bytes(without.bytes), "ready")):
            answers = outcome_of_model(DebuggedCase(contents, first_looks=[Look((0, 0), [2], [])])).answers
            self.assertEqual((answers[1], answers[5], answers[7]), (("", "T05thread:1;"), ("", "m1,2"), ("", text.encode().hex())))

    def test_two_threads(self):
        """Whom gdb has chosen is examined, and the first stop still names thread 1; so does one behind it where nobody's step is next."""
        disk = of_two_areas(JOINS, "place 0 1", "run 0 99", "commit", "checkpoint", "checkpoint", behind=["place 0 2"])
        saved = Recording(bytearray(disk)).machine
        case = DebuggedCase(disk, [Look((3, 0), [], [])], [], [Look((2, 0), [2], []), Look((2, 0), [], [])])
        answers = outcome_of_model(case).answers
        self.assertEqual(answers[1:3], [("", "T05thread:1;"), ("", registers_text(saved, 1))])
        self.assertEqual(answers[10:12], [("", "T05thread:1;"), ("", registers_text(saved, 2))])
        self.assertEqual(answers[16:18], [("event 3, from 2 to 3\n", "OK"), ("", "T05thread:1;")])

    def test_shown_at_first(self):
        """The first one of the area where thread 1 has ended there."""
        words = image_of([*call(Call.CREATE, 0x1100, 7, 0, 0), *call(Call.THREAD_EXIT, 0)])
        disk = of_two_areas(words, "place 0 1", "run 0 99", "commit", "checkpoint", "tick 1", behind=["tick 1"])
        recording = Recording(bytearray(disk))
        self.assertEqual((recording.first, recording.checkpoint, sorted(recording.machine.threads)), (2, 3, [1, 2]))
        case = DebuggedCase(disk, [Look((3, 0), [], [])], [], [Look((2, 0), [], [])])
        answers = outcome_of_model(case).answers
        self.assertEqual(answers[1:3], [("", "T05thread:2;"), ("", registers_text(recording.machine, 2))])
        self.assertEqual((answers[5], answers[8]), (("", "m1,2"), ("", "T05thread:2;")))

    def test_at(self):
        """Before the checkpoint too, where the older area leads there; else only from there on, and what it has is no fault."""
        good, misled = bytes(TwoAreas().disk.bytes), bytes(TwoAreas().flip(SMALL.page_at(0, 16) - 1).disk.bytes)
        for disk, at, told in ((good, 0, "0, from 0"), (good, 1, "1, from 0"), (good, 2, "2, from 0"), (good, 3, "3, from 0"), (misled, 2, "2, from 2"),
                               (misled, 3, "3, from 2")):
            outcome = outcome_of_model(DebuggedCase(disk, first_looks=[Look((at, 0), [], [])], makers=[monitor("events")], at=at))
            self.assertEqual((outcome.status, outcome.answers[3], outcome.answers[7], len(outcome.answers)), (0, *[(f"event {told} to 3\n", "OK")] * 2, 9))
            self.assertEqual(outcome.answers[4][0].splitlines()[:4], [f"events {at}", "clock 0", "status running", f"hart 0 {'1' if at == 1 else 'idle'}"])
        stays = outcome_of_model(DebuggedCase(good, [], [(3, 1)], at=1)).answers[-2]
        self.assertEqual(stays, ("no such position\nevent 1, from 0 to 3\n", "OK"))
        for disk, at in ((good, 4), (misled, 0), (misled, 1), (misled, 4)):
            self.assertEqual(outcome_of_model(DebuggedCase(disk, at=at)), Outcome([], "", 1, "ckrt: Range"))

    def test_shown_at(self):
        """Whose step is next, and thread 1 where nobody's is, whoever made the last step. That one is examined."""
        for behind, named_there in ((["run 0 9"], [1, 1, 1, 2, 1]), (["run 0 2", "tick 1", "tick 1"], [1, 1, 1, 2, 1, 1, 1])):
            disk = of_two_areas(JOINS, "place 0 1", "run 0 99", behind=["place 0 2", *behind])
            for at, number in enumerate(named_there):
                answers = outcome_of_model(DebuggedCase(disk, first_looks=[Look((at, 0), [9], [])], at=at)).answers
                machine = Recording(bytearray(disk)).made_up_to(Visits([], (0, at)), last=at)
                self.assertEqual(answers[1:3], [("", f"T05thread:{number};"), ("", registers_text(machine, number))])
                self.assertEqual(answers[9], answers[2])

    def test_shown_at_a_checkpoint(self):
        """With `--at` the thread is named whose step is next at the history's begin, and thread 1 without. The next stop keeps to it, where
        nobody's step is next."""
        for behind, stops in ((["run 0 1", "tick 1"], {None: (1, 1), 3: (2, 2), 4: (1, 1), 5: (1, 1)}),
                              (["tick 1", "run 0 1"], {None: (1, 1), 3: (1, 1), 4: (2, 2), 5: (1, 1)})):
            disk = of_two_areas(JOINS, "place 0 1", "run 0 99", "place 0 2", "commit", "checkpoint", "checkpoint", behind=behind)
            for at, numbers in stops.items():
                case = DebuggedCase(disk, [Look((5, 0), [], [])], [], [Look((at or 3, 0), [], [])], at=at)
                told = [payload for _, payload in outcome_of_model(case).answers if "thread" in payload]
                self.assertEqual(told, [f"T05thread:{number};" for number in numbers], (behind, at))

    def test_shown_at_without_thread_1(self):
        """Which has ended: the first one stands for it, also where nobody's step is next."""
        words = image_of([*call(Call.CREATE, 0x1100, 7, 0, 0), *call(Call.THREAD_EXIT, 0)]).ljust(256, b"\0") + 4 * bytes.fromhex("13000000")
        disk = of_two_areas(words, "place 0 1", "run 0 99", "commit", "checkpoint", "tick 1", behind=["place 0 2", "run 0 1"])
        for at in (2, 3, 4, 5):
            answers = outcome_of_model(DebuggedCase(disk, first_looks=[Look((at, 0), [], [])], at=at)).answers
            self.assertEqual((answers[1], answers[5]), (("", "T05thread:2;"), ("", "m1,2")))


class WhatIsDrawn(WithKeys):
    def test_refused(self):
        """What is drawn is refused at its turn, but for disks with more damage; the events that were there are there still."""
        refused = 0
        for seed in range(40):
            disk = format_disk(SMALL, GETS)
            serve_disk(disk, b"place 0 1\nrun 0 9\ncommit\nin 41\ncommit\n")
            refuse_event(Random(seed), disk)
            try:
                refused += self.begins_refused(disk)
            except Unrecovered as fault:
                self.assertEqual(str(fault), "Damaged")
                with self.assertRaises(Unrecovered):
                    recover(MemoryDisk(disk))
        self.assertGreater(refused, 20)

    def begins_refused(self, disk):
        begun = Begun(disk)
        self.assertEqual((begun.is_refused, begun.whole - begun.first), (True, 4))
        return True

    def test_misled(self):
        """The older area fits as before, and mostly leads elsewhere: by its memory, a register, other events or refused ones."""
        kinds, whys = Counter(), set()
        for seed in range(60):
            areas = TwoAreas(*LED[:4], "checkpoint", *LED[4:]) if seed % 10 == 0 else TwoAreas()
            mislead(Random(seed), areas.disk.bytes)
            self.assertTrue(fits_older(areas.disk.bytes))
            begun = Begun(areas.disk.bytes)
            kinds[begun.fault] += 1
            whys.add((begun.first, begun.checkpoint - begun.first))
        self.assertEqual(set(kinds), {None, "OlderDiffers"})
        self.assertGreater(kinds["OlderDiffers"], 40)
        self.assertGreater(len(whys), 2)

    def test_ways_to_mislead(self):
        """Each by itself."""
        for way, share in ((MisleadingArea.change_page, 20), (MisleadingArea.change_register, 20), (MisleadingArea.replace_event, 10), (MisleadingArea.refuse_event, 20)):
            faults = []
            for seed in range(20):
                areas = TwoAreas()
                way(MisleadingArea(Random(seed), areas.disk.bytes))
                self.assertTrue(fits_older(areas.disk.bytes))
                faults.append(Begun(areas.disk.bytes).fault)
            self.assertGreaterEqual(faults.count("OlderDiffers"), share, way)

    def test_not_misled(self):
        """A disk without an older area that fits, or one that is none."""
        for disk in (disk_with(PLACE), TwoAreas().put(OLDER, batch(PLACE)).disk.bytes, bytearray(5000)):
            before = bytes(disk)
            mislead(Random(1), disk)
            self.assertEqual((bytes(disk), fits_older(disk)), (before, False))

    def test_with_older(self):
        """It is mostly there."""
        case = Case(SMALL, GETS, [b"place 0 1\nrun 0 9\ncommit\nin 41\ncommit\n"])
        self.assertGreater(sum(fits_older(disk_with_older(Random(seed), case)) for seed in range(20)), 15)

    def test_none_is_refused(self):
        """Where a machine takes all that are offered nothing is put among the events."""
        disk = format_disk(SMALL, b"")
        drawn = RefusedEvent(Random(1), disk)
        self.assertEqual(len(drawn.with_refused()), 1)
        drawn.found.machine.refusal_of = lambda event, held: None
        self.assertEqual(drawn.with_refused(), [])

    def test_cases(self):
        """Of the kind's cases some are refused, by motions and by commands, and some have no session; histories begin everywhere."""
        cases = [case_of("debugged", seed) for seed in range(1, 56)]
        kinds = [kind_of_outcome(case, outcome_of_model(case)).partition(" by ") for case in cases]
        self.assertEqual({kind for kind, *_ in kinds} - {"Range"}, {"shown", "shown before a motion", "Damaged", "OlderDiffers"})
        self.assertGreater(len({maker for *_, maker in kinds}), 4)
        self.assertEqual(sum(bool(case.first_looks) for case in cases) > 25, True)
        histories = {kind_of_history(case.contents) for case in cases}
        self.assertEqual(histories, {"none", "from the checkpoint", "from the older area", "Damaged, an event in use", "OlderDiffers, the older journal",
                                     "OlderDiffers, an event in use"})

    def test_stretches(self):
        """Of some disks with stretches an event is refused."""
        case = Case(SMALL, GETS, [b"place 0 1\nrun 0 9\ncommit\nin 41\ncommit\n"])
        drawn = [Begun(disk_with_stretches(Random(seed), case)[0]).is_refused for seed in range(8)]
        self.assertEqual(drawn, [False] * 7 + [True])

    def test_other_damage_stays(self):
        disk = bytearray(format_disk(SMALL, b""))
        disk[0] = 0
        before = bytes(disk)
        refuse_event(Random(1), disk)
        self.assertEqual(bytes(disk), before)
