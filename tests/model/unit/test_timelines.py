"""Timelines: pieces of a small guest by hand, what all pieces have to be, trace events, and pictures that are wrong."""
import unittest

from cases.glances import recording_of
from cases.histories import is_turned
from cases.kinds import case_of
from model.abi import Call
from model.assembler import STOP, Jump, Label, Program, image_of
from model.layout import Geometry, format_disk
from model.lines import serve_disk
from model.listing import OutOfRange
from model.pictures import difference_of_picture, heading_of
from model.stretches import Recording
from model.switches import switched
from model.timelines import Timeline, title_of, trace_events
from unit.test_races import call, load, locked, recording_of as recording_of_turns

JOINS_AND_LOCKS = [(2, call(Call.MUTEX_LOCK, 0x2000)), (3, call(Call.MUTEX_LOCK, 0x2000)), (1, call(Call.JOIN, 3)),
                   (2, call(Call.MUTEX_UNLOCK, 0x2000)), (3, call(Call.THREAD_EXIT, 0))]
PICTURE = ('<svg xmlns="http://www.w3.org/2000/svg" width="500"><text>{}</text>{}'
           '<svg x="80" width="400" height="16" viewBox="0 0 {} 16">{}</svg></svg>')


def rows_of(timeline):
    return {number: [(piece.start, piece.steps, piece.activity.name) for piece in pieces] for number, pieces in timeline.pieces.items()}


class Pieces(unittest.TestCase):
    def setUp(self):
        switch = switched(keys=True, long_runs=True)
        switch.__enter__()
        self.addCleanup(switch.__exit__, None, None, None)

    def test_by_hand(self):
        """The creates are 14 steps, each call is 3 or 4."""
        timeline = recording_of_turns(JOINS_AND_LOCKS).show(Timeline())
        self.assertEqual(rows_of(timeline), {
            1: [(0, 14, "runs on hart 0"), (14, 6, "is ready"), (20, 3, "runs on hart 0"), (23, 6, "waits to join thread 3")],
            2: [(7, 7, "is ready"), (14, 3, "runs on hart 0"), (17, 6, "is ready"), (23, 3, "runs on hart 0"), (26, 3, "is ready")],
            3: [(14, 3, "is ready"), (17, 3, "runs on hart 0"), (20, 6, "waits for mutex 00002000"), (26, 3, "runs on hart 0")]})
        self.assertEqual(timeline.events, list(enumerate([0, 0, 14, 14, 17, 17, 20, 20, 23, 23, 26, 26])))

    def test_waits(self):
        """Each of its kind; behind a condition a thread waits for the mutex."""
        wait = [*call(Call.MUTEX_LOCK, 0x2000), *call(Call.COND_WAIT, 0x3000, 0x2000)]
        turns = [(2, wait), (3, [*call(Call.MUTEX_LOCK, 0x2000), *call(Call.COND_SIGNAL, 0x3000), *load()])]
        names = [name for _, _, name in rows_of(recording_of_turns(turns).show(Timeline()))[2]]
        self.assertEqual(names, ["is ready", "runs on hart 0", "waits for condition 00003000", "waits for mutex 00002000"])
        for words, name in [((Call.SLEEP_UNTIL, 9, 0), "sleeps"), ((Call.GETC,), "waits for input")]:
            turns = [(2, call(*words)), (3, load())]
            self.assertEqual(rows_of(recording_of_turns(turns).show(Timeline()))[2][-1], (14 + len(call(*words)), 3, name))
        turns = [(1, call(Call.BARRIER_INIT, 0x4000, 2)), (2, call(Call.BARRIER_WAIT, 0x4000)), (3, load())]
        self.assertEqual(rows_of(recording_of_turns(turns).show(Timeline()))[2][-1][2], "waits at barrier 00004000")
        turns = [(3, call(Call.RWLOCK_WRLOCK, 0x5000)), (2, call(Call.RWLOCK_RDLOCK, 0x5000)), (3, load())]
        self.assertEqual(rows_of(recording_of_turns(turns).show(Timeline()))[2][-1][2], "waits for read-write lock 00005000")

    def test_ended(self):
        turns = [(2, call(Call.THREAD_EXIT, 0)), (3, load()), (1, call(Call.JOIN, 2)), (3, load())]
        self.assertEqual(rows_of(recording_of_turns(turns).show(Timeline()))[2][-1], (17, 6, "has ended"))

    def test_harts(self):
        """A thread that goes on by another hart, and one that begins where the last of its number ran: each has two pieces."""
        program = Program()
        program.add([*call(Call.CREATE, Label("routine"), 0, 0, 1), STOP])
        program.label("routine")
        program.add([*call(Call.SELF), *call(Call.THREAD_EXIT, 0)])
        disk = format_disk(Geometry(16, 2, 4096), image_of(program.words()))
        lines = ["place 0 1", "run 0 7", "place 0 2", "run 0 1", "place 0 1", "place 1 2", "run 1 4", "run 0 2", "commit"]
        serve_disk(disk, "\n".join([*lines, ""]).encode())
        self.assertEqual(rows_of(Recording(disk).show(Timeline()))[2], [(7, 1, "runs on hart 0"), (8, 4, "runs on hart 1")])
        program.items[program.items.index(STOP)] = Jump("main")
        program.labels["main"] = 0x1000
        disk = format_disk(Geometry(16, 2, 4096), image_of(program.words()))
        lines = ["place 0 1", "run 0 7", "place 1 2", "run 1 5", "run 0 8", "place 1 2", "run 1 1", "commit"]
        serve_disk(disk, "\n".join([*lines, ""]).encode())
        self.assertEqual(rows_of(Recording(disk).show(Timeline()))[2], [(7, 5, "runs on hart 1"), (20, 1, "runs on hart 1")])

    def test_turns_of_plain_steps(self):
        timeline = recording_of_turns([(2, load()), (3, load()), (2, load())]).show(Timeline())
        self.assertEqual(rows_of(timeline)[3][-2:], [(17, 3, "runs on hart 0"), (20, 3, "is ready")])

    def test_stretches(self):
        recording = recording_of_turns(JOINS_AND_LOCKS)
        timeline = recording.show(Timeline(), 4, 8)
        self.assertEqual(timeline.steps, 6)
        self.assertEqual(rows_of(timeline)[3], [(0, 3, "runs on hart 0"), (3, 3, "waits for mutex 00002000")])
        self.assertEqual(timeline.events, [(4, 0), (5, 0), (6, 3), (7, 3)])
        self.assertEqual(recording.show(Timeline(), 5, 5).pieces, {})
        with self.assertRaises(OutOfRange):
            recording.show(Timeline(), 0, 13)

    def test_partition(self):
        """Each step is one thread's; a thread's pieces follow each other, and touching ones are of other activities."""
        for seed in range(1, 6):
            case = case_of("timelines", seed)
            recording, fault = recording_of(case.contents)
            timeline = Timeline() if fault else recording.show(Timeline())
            made = []
            for pieces in timeline.pieces.values():
                for piece, later in zip(pieces, pieces[1:]):
                    end = piece.start + piece.steps
                    self.assertTrue(end < later.start or (end == later.start and piece.activity != later.activity), seed)
                made += [step for piece in pieces if piece.activity.category == "running"
                         for step in range(piece.start, piece.start + piece.steps)]
            self.assertEqual(sorted(made), list(range(timeline.steps)), seed)

    def test_trace_events(self):
        events = trace_events(recording_of_turns(JOINS_AND_LOCKS).show(Timeline(), 10))
        self.assertEqual(events, [
            {"name": "process_name", "ph": "M", "pid": 1, "args": {"name": "guest"}},
            {"name": "event 10", "ph": "i", "ts": 0, "pid": 1, "tid": 0, "s": "p"},
            {"name": "event 11", "ph": "i", "ts": 0, "pid": 1, "tid": 0, "s": "p"},
            {"name": "thread_name", "ph": "M", "pid": 1, "tid": 1, "args": {"name": "thread 1"}},
            {"name": "waits to join thread 3", "cat": "join", "ph": "X", "ts": 0, "dur": 3, "pid": 1, "tid": 1},
            {"name": "thread_name", "ph": "M", "pid": 1, "tid": 2, "args": {"name": "thread 2"}},
            {"name": "is ready", "cat": "ready", "ph": "X", "ts": 0, "dur": 3, "pid": 1, "tid": 2},
            {"name": "thread_name", "ph": "M", "pid": 1, "tid": 3, "args": {"name": "thread 3"}},
            {"name": "runs on hart 0", "cat": "running", "ph": "X", "ts": 0, "dur": 3, "pid": 1, "tid": 3}])

    def test_turned(self):
        self.assertEqual([is_turned(*ends) for ends in [(None, None), (3, None), (None, 0), (3, 3), (3, 2)]], [False] * 4 + [True])


class Pictures(unittest.TestCase):
    """A picture of one thread, which runs for 40 steps."""

    def setUp(self):
        self.timeline = recording_of_turns([(1, locked(load(), 0x2000)), (1, 31)], threads=0).show(Timeline())
        self.timeline.events, self.timeline.ends = [(4, 0), (5, 20)], (4, 6)
        self.piece = self.timeline.pieces[1][0]

    def tick(self, number, at):
        return f'<text text-anchor="middle" x="{at}">{number}</text>'

    def line(self, at):
        return f'<line class="tick" x1="{at}" x2="{at}"/>'

    def differs(self, ticks=((4, 80), (5, 280)), steps=40, width=500, title=None, heading="events 4 to 6: 40 steps", lines=None, **changed):
        """The lines stand where the numbers do, if none are named."""
        piece = {"class": "running", "x": 0, "width": 40, "y": 0, "height": 16, **changed}
        drawn = " ".join(f'{name}="{value}"' for name, value in piece.items())
        lines = [at for _, at in ticks] if lines is None else lines
        told = "".join([*(self.tick(*tick) for tick in ticks), *map(self.line, lines)])
        text = PICTURE.format(heading, told, steps, f"<rect {drawn}><title>{title or title_of(1, self.piece)}</title></rect>")
        return difference_of_picture(text, width, self.timeline) is not None

    def test_right(self):
        self.assertEqual((self.timeline.steps, self.piece.steps), (40, 40))
        self.assertFalse(self.differs())
        self.assertFalse(self.differs(ticks=((4, 80), (5, 281))))

    def test_wrong(self):
        self.assertTrue(self.differs(x=1))
        self.assertTrue(self.differs(width=39))
        self.assertTrue(self.differs(steps=41))
        self.assertTrue(self.differs(height=2))
        self.assertTrue(self.differs(title="thread 1 runs on hart 1: 40 steps from step 0"))
        self.assertTrue(self.differs(**{"class": "ready"}))
        for ticks in (((4, 80), (5, 300)), ((4, 80), (6, 280)), ((4, 80), (4, 80)), ((4, 80),), ((5, 280),), (), ((5, 280), (4, 80)),
                      ((4, 80), (5, 280), (6, 480))):
            self.assertTrue(self.differs(ticks=ticks), ticks)
        for ticks in (((4, 80),), ((5, 280),), (), ((4, 80), (6, 280)), ((4, 80), (5, 280), (6, 300)), ((4, 80), (5, 279))):
            self.assertTrue(self.differs(ticks=ticks, lines=(80, 280)), ticks)
        for lines in ((80,), (80, 282), (80, 280, 280), ()):
            self.assertTrue(self.differs(lines=lines), lines)

    def test_room_of_numbers(self):
        """4 pixels a digit and 2 more to either side; none begins before the last one that is told ends, nor ends behind the picture."""
        for events, ticks in [([(4, 0), (5, 1)], [(4, 80)]), ([(4, 0), (5, 2)], [(4, 80), (5, 100)]), ([(100, 0), (101, 2)], [(100, 80)]),
                              ([(100, 0), (101, 3)], [(100, 80), (101, 110)]), ([(4, 0), (5, 1), (6, 2)], [(4, 80), (6, 100)]),
                              ([(1000, 0), (1001, 40)], [(1000, 80), (1001, 480)]), ([(10000, 0), (10001, 40)], [(10000, 80), (10001, 478)])]:
            self.timeline.events = events
            lines = [80 + 10 * step for _, step in events]
            self.assertFalse(self.differs(ticks=ticks, lines=lines), events)
            self.assertTrue(self.differs(ticks=[*zip([number for number, _ in events], lines)], lines=lines) or len(ticks) == len(events))

    def test_heading(self):
        for heading in ("events 4 to 5: 40 steps", "events 0 to 6: 40 steps", "events 4 to 6: 41 steps", "events 4 to 6: 40 steps, 1 in each column", ""):
            self.assertTrue(self.differs(heading=heading), heading)
        recording = recording_of_turns(JOINS_AND_LOCKS)
        self.assertEqual([heading_of(recording.show(Timeline(), *ends)) for ends in [(None, None), (4, 8), (5, 5)]],
                         ["events 0 to 12: 29 steps", "events 4 to 8: 6 steps", "events 5 to 5: 0 steps"])

    def test_many_events(self):
        """Up to 19 each has its line, from 20 on every second, from 40 on every third; at one place the first has its number."""
        for count, every in [(19, 1), (20, 2), (21, 2), (39, 2), (40, 3), (60, 4)]:
            self.timeline.events = [(number, 0) for number in range(count)]
            for shown in (1, 2, 3, 4):
                self.assertEqual(self.differs(ticks=[(0, 80)], lines=[80] * len(range(0, count, shown))), shown != every, (count, shown))
            self.assertTrue(self.differs(ticks=[(every - 1, 80)], lines=[80] * len(range(0, count, every))) or every == 1)

    def test_without_steps(self):
        """There are no rows, and all lines stand at one place."""
        self.timeline.pieces, self.timeline.steps, self.timeline.events = {}, 0, [(4, 0), (5, 0)]
        picture = '<svg xmlns="http://www.w3.org/2000/svg" width="500"><text>events 4 to 6: 0 steps</text>{}</svg>'
        for lines, ticks, is_right in [((80, 80), ((4, 80),), True), ((80, 81), ((4, 80),), False), ((80,), ((4, 80),), False), ((), (), False),
                                       ((80, 80), ((4, 80), (5, 80)), False), ((80, 80), (), False)]:
            drawn = picture.format("".join([*(self.tick(*tick) for tick in ticks), *map(self.line, lines)]))
            self.assertEqual(difference_of_picture(drawn, 500, self.timeline) is None, is_right, (lines, ticks))

    def test_width(self):
        self.assertTrue(difference_of_picture('<svg xmlns="http://www.w3.org/2000/svg" width="499"/>', 500, self.timeline))
