"""The picture of the crates, made of crates.txt alone: each group above those that it stands on, each crate to the right of those of its
group that it stands on."""
import re

from shared.crates import listed
from svg import Picture

WIDTH, EDGE, GAP, HEAD = 1200, 10, 36, 24
BOX, HIGH, COLUMN, ROW = 112, 24, 128, 32
FILLS = {"processor": "#e8eef7", "threads": "#dbe7f6", "machine": "#cfdff4", "storage": "#fce5cd", "running": "#efe3f5", "look": "#e2f0d9",
         "history": "#ddeed6", "gdb": "#d9ead3", "hunt": "#d0e4c8", "cli": "#fff2cc"}
LEFT_OUT = "test"  # what only looks


def all_below(above):
    """Each with all that it stands on, at whatever distance; `above` has the lowest first."""
    below = {}
    for name, under in above.items():
        below[name] = set(under).union(*(below[it] for it in under))
    return below


def covers(above):
    """Each with those that it names and that nothing else it names stands on: the lines to be drawn."""
    below = all_below(above)
    return {name: [it for it in under if not any(it in below[other] for other in under)] for name, under in above.items()}


def lines_of_groups(crates):
    """Of each group the groups below it to which a line leads down; and the pairs of groups of which the lower one stands on the upper one."""
    order, found = [group for group in crates.groups if group != LEFT_OUT], {}
    for group in order:
        lists = {crates.group_of[it] for crate in crates.groups[group] for it in crates.names[crate] if it in crates.names}
        found[group] = [it for it in order if it in lists - {group}]
    down = {group: [it for it in under if order.index(it) < order.index(group)] for group, under in found.items()}
    return covers(down), [(group, it) for group in order for it in found[group] if it not in down[group]]


def columns_of(lines):
    """The crates of a group by columns: each right before what needs it, what nothing needs right behind what it needs."""
    depth = {}
    for name in reversed(lines):
        depth[name] = 1 + max((depth[it] for it in depth if name in lines[it]), default=-1)
    last = max(depth.values())
    for name, under in lines.items():
        if not any(name in it for it in lines.values()):
            depth[name] = min((depth[it] for it in under), default=last + 1) - 1
    return [[name for name in lines if depth[name] == level] for level in range(last, -1, -1)]


def levels_of(lines):
    """The groups by levels, top first: those side by side of which none stands on another."""
    level = {}
    for group, under in lines.items():
        level[group] = 1 + max((level[it] for it in under), default=-1)
    return [[group for group in reversed(lines) if level[group] == it] for it in range(max(level.values()), -1, -1)]


class Group:
    """A group in its place: its frame, with its crates in columns, and in each column the ways of the lines that pass it, as (crate, column)."""

    def __init__(self, name, crates):
        self.name, own = name, crates.groups[name]
        self.lines = covers({crate: [it for it in crates.names[crate] if it in own] for crate in own})
        self.columns = columns_of(self.lines)
        self.column = {crate: at for at, column in enumerate(self.columns) for crate in column}
        self.add_ways()
        self.left = self.top = self.width = 0
        self.height = HEAD + ROW * max(map(len, self.columns)) + 4

    def way(self, under, name):
        """What a line from a crate to one that stands on it leads over, both ends among it."""
        return [under, *((under, at) for at in range(self.column[under] + 1, self.column[name])), name]

    def add_ways(self):
        """Adds the ways to the columns, and has each column in the order of what leads to it from the left."""
        ways = [self.way(under, name) for name in self.lines for under in self.lines[name]]
        for under, at in dict.fromkeys(it for way in ways for it in way[1:-1]):
            self.columns[at].append((under, at))
        place = {}
        for column in self.columns:
            before = {it: [place[one] for way in ways for one, other in zip(way, way[1:]) if other == it] for it in column}
            column.sort(key=lambda it, before=before: sum(before[it]) / len(before[it]) if before[it] else 0.5)
            place.update({it: (row + 0.5) / len(column) for row, it in enumerate(column)})

    @property
    def middle(self):
        return self.left + self.width // 2

    def spots(self):
        """The middle of the left side of each crate and of each way."""
        wide = self.width / len(self.columns)
        for at, column in enumerate(self.columns):
            for row, it in enumerate(column):
                y = self.top + HEAD + (self.height - HEAD) * (row + 0.5) / len(column)
                yield it, (round(self.left + wide * (at + 0.5) - BOX / 2), round(y - 2))

    def draw(self, picture):
        spot = dict(self.spots())
        picture.box(self.left, self.top, self.width, self.height, FILLS[self.name], radius=6)
        picture.text(self.left + 10, self.top + 17, self.name, "bold")
        for name, under in self.lines.items():
            for it in under:
                draw_way(picture, [spot[one] for one in self.way(it, name)])
        for name in self.column:
            x, y = spot[name]
            picture.box(x, y - HIGH // 2, BOX, HIGH, "#fff", radius=4)
            picture.text(x + BOX // 2, y + 4, re.sub("^ckrt_", "", name), "small middle")


def draw_way(picture, spots):
    """A line from the right side of a crate over all between to the left side of another."""
    steps = []
    for (x1, y1), (x2, y2) in zip(spots, spots[1:]):
        middle = (x1 + BOX + x2) // 2
        steps.append(f"L {x1 + BOX} {y1} C {middle} {y1}, {middle} {y2}, {x2} {y2}")
    picture.path("M" + " ".join(steps)[1:], "#777")


def placed(levels):
    """Puts the groups of each level side by side, each as wide as its columns want."""
    top = EDGE
    for level in levels:
        room, left, wanted = WIDTH - 2 * EDGE - GAP * (len(level) - 1), EDGE, sum(len(it.columns) for it in level)
        for group in level:
            group.left, group.top, group.width = left, top, room * len(group.columns) // wanted
            group.height = max(it.height for it in level)
            left += group.width + GAP
        top += level[0].height + GAP


def draw_line(picture, upper, lower):
    """From a group's frame down to that of another: straight where the lower one's middle is below the upper one."""
    x1 = lower.middle if upper.left < lower.middle < upper.left + upper.width else upper.middle
    x2 = upper.middle if lower.left < upper.middle < lower.left + lower.width and x1 == upper.middle else lower.middle
    picture.curve((x1, upper.top + upper.height), (x2, lower.top), "#444")


def draw_upward(picture, lower, upper):
    """From a group at the right edge up to one above it, on which it stands against the rule."""
    edge, y1, y2 = WIDTH - EDGE // 2, lower.top + HEAD, upper.top + HEAD
    picture.path(f"M {lower.left + lower.width} {y1} L {edge} {y1} L {edge} {y2} L {upper.left + upper.width} {y2}", "#c00")


def drawn():
    crates = listed()
    lines, upward = lines_of_groups(crates)
    groups = {name: Group(name, crates) for name in lines}
    placed([[groups[name] for name in level] for level in levels_of(lines)])
    picture = Picture(WIDTH, "The crates by group: each stands on those to which a line leads")
    for name, under in lines.items():
        for it in under:
            draw_line(picture, groups[name], groups[it])
    for group in groups.values():
        group.draw(picture)
    for lower, upper in upward:
        draw_upward(picture, groups[lower], groups[upper])
    return picture.written()
