"""Pictures of many pieces: columns of as many steps each, of which each shows what its thread did for which share; read back, too."""
from collections import Counter
from dataclasses import dataclass

SVG = "{http://www.w3.org/2000/svg}"
MOST_PIECES = MOST_COLUMNS = 2000
HUNDREDTHS = 100  # of a pixel


def is_dense(timeline):
    return sum(map(len, timeline.pieces.values())) > MOST_PIECES


def steps_of_columns(timeline):
    """One more than the steps divided by the columns that a row may have."""
    columns = MOST_COLUMNS // len(timeline.pieces)
    return timeline.steps // columns + 1


@dataclass
class Column:
    """From a step on so many; by category for how many of them the thread did that."""
    start: int
    steps: int
    shares: dict


def columns_of(pieces, whole, steps):
    """Of one row those in which its thread was there."""
    shares = {}
    for piece in pieces:
        end = piece.start + piece.steps
        for start in range(piece.start // steps * steps, end, steps):
            share = min(end, start + steps) - max(piece.start, start)
            shares.setdefault(start, Counter())[piece.activity.category] += share
    return [Column(start, min(steps, whole - start), shares[start]) for start in sorted(shares)]


def drawn_column(number, column, legend, height):
    """Its title; where it is; and the place, length and category of each share that can be seen, from the top down."""
    title, at, rects = f"thread {number}: {column.steps} steps from step {column.start}", 0, []
    for category in legend:
        share = column.shares.get(category, 0)
        end = at + share
        top, bottom = (height * HUNDREDTHS * place // column.steps for place in (at, end))
        title += f", {category} {share}" if share else ""
        if bottom > top:
            rects.append((top, bottom - top, category))
        at = end
    return title, column.start, column.steps, rects


def read_column(group):
    """The same of a picture, with all places that its shares say they are at."""
    rects = [rect for rect in group.findall(f"{SVG}rect") if int(rect.get("height"))]
    places = {(int(rect.get("x")), int(rect.get("width"))) for rect in group.findall(f"{SVG}rect")}
    start, steps = places.pop() if len(places) == 1 else (None, None)
    return (group.find(f"{SVG}title").text, start, steps,
            [(int(rect.get("y")), int(rect.get("height")), rect.get("class")) for rect in rects])


def legend_of(picture):
    """The categories, in the order in which the legend has them: words beside boxes that have their colours."""
    boxes = [box.get("class") for box in picture.findall(f"{SVG}rect") if box.get("class")]
    words = [text.text for text in picture.findall(f"{SVG}text")]
    return [category for category in boxes if category in words]


def difference_of_columns(picture, rows, timeline):
    """None, or where rows or columns differ."""
    steps, legend = steps_of_columns(timeline), legend_of(picture)
    for (number, pieces), row in zip(sorted(timeline.pieces.items()), rows):
        _, _, length, height = map(int, row.get("viewBox").split())
        if (length, height) != (timeline.steps, HUNDREDTHS * int(row.get("height"))):
            return f"a row of {row.get('viewBox')}, model {timeline.steps} steps"
        wanted = [drawn_column(number, column, legend, int(row.get("height"))) for column in columns_of(pieces, timeline.steps, steps)]
        shown = [read_column(group) for group in row.findall(f"{SVG}g")]
        if wanted != shown:
            unlike = next((pair for pair in zip(wanted, shown) if pair[0] != pair[1]), (len(wanted), len(shown)))
            return "model {}, program {}".format(*unlike)
    return None if len(rows) == len(timeline.pieces) else f"{len(timeline.pieces)} rows of the model, {len(rows)} of the program"
