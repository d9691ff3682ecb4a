"""A picture of `ckrt timeline`, read back: its width and heading, the pieces of each row, and the lines of events with their numbers."""
from xml.etree import ElementTree

from model.columns import difference_of_columns, is_dense, steps_of_columns
from model.timelines import title_of

SVG = "{http://www.w3.org/2000/svg}"
ROUNDING = 1  # pixel
NUMBERED = 20  # events, from which on not each has its line
DIGIT, BESIDE = 4, 2  # pixels that a number takes to either side of its middle, for each digit and in all


def read_row(row):
    """Its pieces: place and length in the row's own measure, which is steps; category, title, and whether it is a thin line."""
    whole = float(row.get("height"))
    return [(int(piece.get("x")), int(piece.get("width")), piece.get("class"), piece.find(f"{SVG}title").text,
             float(piece.get("height")) < whole) for piece in row.findall(f"{SVG}rect")]


def drawn_row(number, pieces):
    """What a row of the model has."""
    return [(piece.start, piece.steps, piece.activity.category, title_of(number, piece), piece.activity.category == "ready")
            for piece in pieces]


def difference_of_rows(rows, timeline):
    """None, or where rows or pieces differ. A row is as long as all steps."""
    wanted = [drawn_row(number, pieces) for number, pieces in sorted(timeline.pieces.items())]
    for pieces, row in zip(wanted, rows):
        if read_row(row) != pieces:
            unlike = next((pair for pair in zip(pieces, read_row(row)) if pair[0] != pair[1]), (len(pieces), len(read_row(row))))
            return "model {}, program {}".format(*unlike)
        if row.get("viewBox").split()[::2] != ["0", str(timeline.steps)]:
            return f"a row from and to {row.get('viewBox')}, model {timeline.steps} steps"
    return None if len(rows) == len(wanted) else f"{len(wanted)} rows of the model, {len(rows)} of the program"


def heading_of(timeline):
    """The stretch, its steps, and how many a column has."""
    first, last = timeline.ends
    columns = f", {steps_of_columns(timeline)} in each column" if is_dense(timeline) else ""
    return f"events {first} to {last}: {timeline.steps} steps{columns}"


def difference_of_lines(lines, rows, timeline):
    """Of many events every so-manyth has a line, from the first one on: where it begins, to a pixel; without rows all at one place."""
    steps = [step for _, step in shown_events(timeline)]
    if len(lines) != len(steps):
        return f"{len(lines)} lines of events, model {len(steps)}"
    if not rows:
        return None if len(set(lines)) <= 1 else f"lines at {lines}, where nothing has a length"
    for step, at in zip(steps, lines):
        place = float(rows[0].get("x")) + step * float(rows[0].get("width")) / timeline.steps
        if abs(at - place) > ROUNDING:
            return f"the line of step {step} at {at}, model {place}"
    return None


def shown_events(timeline):
    return timeline.events[::1 + len(timeline.events) // NUMBERED]


def told_numbers(numbers, lines, width):
    """Where the numbers of events stand whose lines stand there: each below its line, or where the picture ends; without those that would
    begin before the last one ends."""
    told, end = [], None
    for number, line in zip(numbers, lines):
        half = DIGIT * len(str(number)) + BESIDE
        middle = min(line, width - half)
        if end is None or middle - half >= end:
            told.append((number, middle))
            end = middle + half
    return told


def difference_of_ticks(picture, rows, timeline):
    lines = [float(line.get("x1")) for line in picture.findall(f"{SVG}line") if line.get("class") == "tick"]
    ticks = [(int(tick.text), float(tick.get("x"))) for tick in picture.findall(f"{SVG}text") if tick.get("text-anchor") == "middle"]
    wanted = told_numbers([number for number, _ in shown_events(timeline)], lines, float(picture.get("width")))
    return difference_of_lines(lines, rows, timeline) or (None if ticks == wanted else f"numbers {ticks}, model {wanted}")


def difference_of_picture(text, width, timeline):
    picture = ElementTree.fromstring(text)
    if picture.get("width") != str(width):
        return f"a picture of width {picture.get('width')}"
    heading = picture.find(f"{SVG}text").text
    if heading != heading_of(timeline):
        return f"heading {heading!r}, model {heading_of(timeline)!r}"
    rows = picture.findall(f"{SVG}svg")
    difference = difference_of_columns(picture, rows, timeline) if is_dense(timeline) else difference_of_rows(rows, timeline)
    return difference or difference_of_ticks(picture, rows, timeline)
