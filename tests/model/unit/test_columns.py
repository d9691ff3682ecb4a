"""Dense timelines: how long a column is, what it shows for which share, by hand; and pictures that are wrong."""
import unittest
from xml.etree import ElementTree

from cases.crowded import Counted
from model.columns import Column, columns_of, difference_of_columns, drawn_column, is_dense, legend_of, steps_of_columns
from model.pictures import difference_of_picture
from model.timelines import Activity, Piece, Timeline
from unit.test_races import load, recording_of

RUNS, WAITS, ENDED = Activity("running", "runs on hart 0"), Activity("mutex", "waits for mutex 00002000"), Activity("ended", "has ended")
LEGEND = ["running", "mutex", "ended"]
SHAPE = ('<svg xmlns="http://www.w3.org/2000/svg" width="500"><rect width="100%"/><text>events 0 to 0: 2001 steps, {} in each column</text>'
         '{}<line class="tick" x1="80" x2="80"/><text text-anchor="middle" x="80">0</text>{}</svg>')
ROW = '<svg x="80" y="9" width="400" height="16" viewBox="0 0 2001 {}">{}</svg>'
COLUMN = "<g><title>thread 1: {1} steps from step {0}, {2} {1}</title><rect class=\"{2}\" x=\"{0}\" width=\"{1}\" y=\"0\" height=\"1600\"/></g>"


def alternating(count, steps=1):
    """A thread that has waited at each odd piece."""
    timeline = Timeline()
    timeline.pieces = {1: [Piece([RUNS, WAITS][number % 2], number * steps, steps) for number in range(count)]}
    timeline.steps, timeline.events = count * steps, [(0, 0)]
    return timeline


class Columns(unittest.TestCase):
    def test_dense(self):
        self.assertEqual([is_dense(alternating(count)) for count in (1, 1999, 2000, 2001)], [False, False, False, True])
        timeline = alternating(2000)
        timeline.pieces[2] = [Piece(RUNS, 0, 2000)]
        self.assertTrue(is_dense(timeline))

    def test_steps(self):
        """There are 2,000 columns in all rows at most; one step more than the steps divided by those that a row may have."""
        timeline = alternating(2001)
        for rows, steps, expected in [(1, 2001, 2), (1, 3999, 2), (1, 4000, 3), (3, 665, 1), (3, 666, 2), (6, 29685, 90), (64, 3099, 100),
                                      (64, 3100, 101)]:
            timeline.pieces, timeline.steps = dict.fromkeys(range(rows), []), steps
            self.assertEqual(steps_of_columns(timeline), expected)
            self.assertLessEqual(rows * -(-steps // expected), 2000)

    def test_shares(self):
        """A piece may end in a column, or go through some; there are none where the thread wasn't there."""
        pieces = [Piece(RUNS, 3, 4), Piece(WAITS, 7, 14), Piece(RUNS, 21, 2), Piece(ENDED, 41, 9)]
        self.assertEqual(columns_of(pieces, 52, 10), [
            Column(0, 10, {"running": 4, "mutex": 3}), Column(10, 10, {"mutex": 10}), Column(20, 10, {"mutex": 1, "running": 2}),
            Column(40, 10, {"ended": 9})])
        self.assertEqual(columns_of([Piece(ENDED, 41, 11)], 52, 10)[-1], Column(50, 2, {"ended": 2}))

    def test_drawn(self):
        """Edges are rounded down, so shares of nothing aren't seen; what is left stays white."""
        column = Column(20, 7, {"ended": 2, "running": 1, "mutex": 3})
        self.assertEqual(drawn_column(4, column, LEGEND, 16), ("thread 4: 7 steps from step 20, running 1, mutex 3, ended 2", 20, 7, [
            (0, 228, "running"), (228, 686, "mutex"), (914, 457, "ended")]))
        column = Column(0, 10_000, {"mutex": 9_999, "ended": 1})
        self.assertEqual(drawn_column(1, column, LEGEND, 16)[2:], (10_000, [(0, 1599, "mutex"), (1599, 1, "ended")]))
        column = Column(0, 10_000, {"running": 1, "mutex": 9_999})
        self.assertEqual(drawn_column(1, column, LEGEND, 16)[2:], (10_000, [(0, 1600, "mutex")]))

    def test_counts(self):
        """At the begin of each event."""
        self.assertEqual(recording_of([(2, load()), (1, load())], threads=1).show(Counted()).counts, {0: 0, 1: 0, 2: 1, 3: 1, 4: 3, 5: 3})


class Pictures(unittest.TestCase):
    """Of a thread with 2,001 pieces, each of a step, so a column has two; of these this one has a share of each kind, but the last."""

    def setUp(self):
        self.timeline = alternating(2001)
        self.legend = "".join(f'<rect class="{name}" x="1"/><text>{name}</text>' for name in LEGEND)

    def columns(self, halves=("running", "mutex"), last="running", title="running 1, mutex 1"):
        groups = []
        for at in range(0, 2000, 2):
            rects = "".join(f'<rect class="{name}" x="{at}" width="2" y="{800 * half}" height="800"/>' for half, name in enumerate(halves))
            groups.append(f"<g><title>thread 1: 2 steps from step {at}, {title}</title>{rects}</g>")
        return "".join(groups) + COLUMN.format(2000, 1, last)

    def differs(self, columns=None, height=1600, heading=2, legend=None, rows=1):
        row = ROW.format(height, self.columns() if columns is None else columns)
        return difference_of_picture(SHAPE.format(heading, self.legend if legend is None else legend, row * rows), 500, self.timeline) is not None

    def test_right(self):
        self.assertFalse(self.differs())

    def test_wrong(self):
        for wrong in [self.columns(halves=("mutex", "running")), self.columns(halves=("running",)), self.columns(title="mutex 1, running 1"),
                      self.columns(title="running 1"), self.columns(last="mutex"), "", self.columns()[:-4] + "</g>" + COLUMN.format(0, 1, "mutex"),
                      self.columns().replace('x="8"', 'x="9"', 1), self.columns().replace('width="2"', 'width="3"', 1),
                      self.columns().replace('height="800"', 'height="799"', 1)]:
            self.assertTrue(self.differs(wrong), wrong[:300])
        self.assertTrue(self.differs(height=1599))
        self.assertTrue(self.differs(heading=20))
        self.assertTrue(self.differs(rows=2))
        self.assertTrue(self.differs(legend=self.legend.replace("mutex", "lock")))
        self.assertTrue(self.differs(legend="".join(f'<rect class="{name}" x="1"/><text>{name}</text>' for name in LEGEND[::-1])))

    def test_pieces_in_their_place(self):
        """Of so many pieces none is drawn by itself."""
        pieces = "".join(COLUMN.format(at, 1, ["running", "mutex"][at % 2]).replace("<g>", "").replace("</g>", "") for at in range(2001))
        self.assertTrue(self.differs(pieces))

    def test_legend(self):
        picture = ElementTree.fromstring(SHAPE.format(2, self.legend, ""))
        self.assertEqual(legend_of(picture), LEGEND)
        self.assertIsNone(difference_of_columns(ElementTree.fromstring(SHAPE.format(2, self.legend, ROW.format(1600, self.columns()))), [
            ElementTree.fromstring(ROW.replace("<svg ", '<svg xmlns="http://www.w3.org/2000/svg" ').format(1600, self.columns()))],
            self.timeline))
