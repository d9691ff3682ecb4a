"""Cases of `ckrt races` and `ckrt timeline`: disks with recorded events, and stretches of these; what both sides make of them."""
import json
import re
import subprocess
from dataclasses import dataclass

from cases.histories import disk_with_stretches, is_turned
from model.beneath import BLANKS
from model.callers import text_of_names
from model.columns import is_dense
from model.cycle_texts import all_told, lines_of_cycles
from model.layout import note_of
from model.listing import OutOfRange
from model.other_rules import AS_ONE, BEFORE_STORES, BEHIND_LOADS, BOTH_SIDES, GIVEN_LATER, LOADS_ORDER, STAYS, STORES_ORDER
from model.pictures import difference_of_picture
from model.races import EARLIER, ELSEWHERE, ONE_AROUND, SEVERAL, Readings
from model.recovery import Unrecovered
from model.stretches import Recording
from model.timelines import Timeline, trace_events

TIME_LIMIT = 60
WIDTH, WIDTHS = 1200, range(400, 4001)
LAST = 1, 2, 5, 1 << 62  # how many of the last events of a stretch are asked for
OF_KIT, OF_BYTES, OF_ORDERS = "rule about a kit", "rule about bytes", "rule about memory orders"
RULES = {
    OF_KIT: {
        "a kit's lock taken behind another thread": "locks of a kit order nothing",
        "an access of a kit": "accesses of a kit under its locks aren't told",
        "a word given anew": "memory given anew",
        "none, from the begin": "what was looked at is said, from the begin on",
        "none, from later on": "what was looked at is said, from later on",
    },
    OF_BYTES: {
        EARLIER: "the last store to each byte is kept, and not the word's alone",
        ELSEWHERE: "all four bytes' stores are compared, whichever are accessed",
        ONE_AROUND: "a store is compared once, and not once for each byte",
        SEVERAL: "stores are compared by rising byte",
    },
    OF_ORDERS: {
        LOADS_ORDER: "a relaxed load orders nothing by itself",
        STORES_ORDER: "a relaxed store orders nothing by itself",
        BEFORE_STORES: "a fence gives up by a relaxed store",
        BEHIND_LOADS: "a fence takes what a relaxed load has found",
        BOTH_SIDES: "a fence takes what another one gave up",
        STAYS: "what was given up to a word stays behind a relaxed store",
        GIVEN_LATER: "a fence takes nothing that was given up behind the load",
        AS_ONE: "words of atomic operations at equal places count as one",
    },
}


@dataclass
class RacesCase:
    """A disk, and stretches of its events: from and to, None where nothing is said."""
    contents: bytes
    stretches: list

    def disk(self):
        return bytearray(self.contents)


@dataclass
class TimelinesCase(RacesCase):
    """With the width of its pictures, None where nothing is said."""
    width: int | None


def races_case(chance, case):
    return RacesCase(*disk_with_stretches(chance, case))


def timelines_case(chance, case):
    width = chance.choice([None, None, 400, 4000, chance.choice(WIDTHS), 399, 4001, 0])
    return TimelinesCase(*disk_with_stretches(chance, case), width)


@dataclass(frozen=True)
class Glance:
    """What a job shows: its status, its text, and the fault's line."""
    status: int
    text: str
    fault: str = ""


def glance_of_program(ckrt, command, path, stretch, *options):
    ends = [(name, str(end)) for name, end in zip(("--from", "--to"), stretch) if end is not None]
    words = [ckrt, command, path, *[word for pair in ends for word in pair], *options]
    done = subprocess.run(words, capture_output=True, timeout=TIME_LIMIT)
    return Glance(done.returncode, done.stdout.decode(), "".join(done.stderr.decode().splitlines()[-1:]))


def recording_of(contents):
    """None and the fault of a disk that doesn't recover."""
    try:
        return Recording(bytearray(contents)), None
    except Unrecovered as fault:
        return None, Glance(1, "", f"ckrt: {fault}")


def shown(recording, fault, stretch, looker):
    """What the looker has seen of the stretch, or the fault."""
    if is_turned(*stretch):
        return None, Glance(1, "", "ckrt: Range")
    if fault:
        return None, fault
    try:
        return recording.show(looker, *stretch), None
    except OutOfRange as outside:
        return None, Glance(1, "", f"ckrt: {outside}")


def difference_of_races(ckrt, case, path, tally):
    """None, or where the two differ on a stretch; what the page leaves open isn't compared. The disk's file keeps its bytes."""
    path.write_bytes(case.disk())
    recording, unrecovered = recording_of(case.contents)
    rows = getattr(case, "rows", ())
    options = names_beside(path, case, rows) if rows else []
    for stretch in case.stretches:
        readings, fault = shown(recording, unrecovered, stretch, Readings(rows))
        lines = readings.lines() if readings else []
        tally["races", "left open" if lines is None else fault.fault[6:] if fault else "shown"] += 1
        if lines is None:
            difference = difference_of_cycles(ckrt, path, stretch, options, readings)
            if difference:
                return difference
            continue
        tally.update(("line of races", kind_of_race(line)) for line in lines)
        if readings:
            tell_met(readings, lines, tally)
        narrow, wide = all_told(recording, readings, stretch, rows) if readings else ([], [])
        tally["block of a race", "left open" if narrow != wide else "compared"] += 1
        tally.update(("line beneath a race", kind_of_beneath(line)) for line in narrow if line.startswith(BLANKS))
        got = glance_of_program(ckrt, "races", path, stretch, *options)
        expected, other = [fault or glance_of_lines(lines) for lines in (narrow, wide)]
        if got not in (expected, other):
            return f"races (from, to {stretch}): {place_of_difference(expected, got)}"
    return None if path.read_bytes() == case.contents else "races changed the disk's bytes"


def difference_of_cycles(ckrt, path, stretch, options, readings):
    """Where the page leaves races open the lines behind them are compared."""
    cycles, got = lines_of_cycles(readings.locks.known, readings.narrow.stretch), glance_of_program(ckrt, "races", path, stretch, *options)
    told = got.text.splitlines()[-len(cycles):]
    return None if told == cycles and not got.status else f"cycles (from, to {stretch}): model {cycles}, program {told}"


def tell_met(readings, lines, tally):
    """How often each rule made a difference."""
    tally[OF_KIT, "a kit's lock taken behind another thread"] += readings.narrow.orders.untaken
    for what, count in readings.met.items():
        tally[OF_KIT, what] += count
    for what, count in readings.narrow.met.items():
        tally[OF_BYTES if what in RULES[OF_BYTES] else OF_ORDERS, what] += count
    if lines[0].startswith("no races"):
        tally[OF_KIT, "none, from later on" if readings.narrow.stretch[0] else "none, from the begin"] += 1


def rules_not_met(tally, subjects=tuple(RULES)):
    """Of these subjects."""
    return [rule for subject in subjects for what, rule in RULES[subject].items() if not tally[subject, what]]


def kind_of_race(line):
    """Who stores and who loads, or the first word of another line."""
    kinds = re.findall(r"(?:stores|loads)(?: atomically)?", line)
    return ", ".join(kinds) or line.split()[0]


def names_beside(path, case, rows):
    """A file of names with these rows, of the program that the disk notes; answers the words for it."""
    file = path.with_name("rows")
    file.write_text(text_of_names(*note_of(case.contents), rows))
    return ["--names", file]


def glance_of_lines(lines):
    return Glance(0, "".join(line + "\n" for line in lines))


def kind_of_beneath(line):
    """Its first words that are neither a position nor a number."""
    return re.sub(r" *(?:\d+\+\d+ thread \d+ )?(holds \w+|called|in a block).*?( to \w+)?$", r"\1\2", line)


def place_of_difference(expected, got):
    if expected.text == got.text:
        return f"model {expected}, program {got}"
    wanted, there = expected.text.splitlines(), got.text.splitlines()
    for number, pair in enumerate(zip(wanted, there), 1):
        if pair[0] != pair[1]:
            return f"line {number}: model {pair[0]!r}, program {pair[1]!r}"
    return f"{len(wanted)} lines of the model, {len(there)} of the program, {got.fault}"


def difference_of_timelines(ckrt, case, path, tally):
    """None, or where the two differ: in the trace events, or in a picture's width, ticks, rows and pieces."""
    path.write_bytes(case.disk())
    recording, unrecovered = recording_of(case.contents)
    for stretch in case.stretches:
        timeline, fault = shown(recording, unrecovered, stretch, Timeline())
        tally["timeline", fault.fault[6:] if fault else "shown by columns" if is_dense(timeline) else "shown"] += 1
        tally.update(("piece of a timeline", piece.activity.category) for pieces in (timeline.pieces.values() if timeline else ())
                     for piece in pieces)
        for compare in (difference_of_events, difference_of_chart):
            difference = compare(ckrt, path, stretch, case.width, timeline, fault)
            if difference:
                return f"timeline (from, to {stretch}): {difference}"
        for count in LAST:
            narrow = None if fault else recording.show(Timeline(), *last_of(recording, stretch, count))
            difference = difference_of_events(ckrt, path, stretch, case.width, narrow, fault, "--last", str(count))
            if difference:
                return f"timeline (from, to {stretch}), last {count}: {difference}"
    return None if path.read_bytes() == case.contents else "timeline changed the disk's bytes"


def last_of(recording, stretch, count):
    """The ends of so many events at the end of a stretch, or of all of it where it has fewer."""
    first, last = recording.ends(*stretch)
    return max(first, last - count), last


def difference_of_events(ckrt, path, stretch, width, timeline, fault, *options):
    got = glance_of_program(ckrt, "timeline", path, stretch, "--json", *options)
    if fault or got.status:
        return None if got == fault else f"json: model {fault}, program {got}"
    wanted, there = trace_events(timeline), json.loads(got.text)["traceEvents"]
    unlike = next((pair for pair in zip(wanted, there) if pair[0] != pair[1]), (len(wanted), len(there)))
    return None if wanted == there else "trace events: model {}, program {}".format(*unlike)


def difference_of_chart(ckrt, path, stretch, width, timeline, fault):
    """A width out of its range is told before the disk is opened."""
    got = glance_of_program(ckrt, "timeline", path, stretch, *([] if width is None else ["--width", str(width)]))
    fault = Glance(1, "", "ckrt: Range") if width is not None and width not in WIDTHS else fault
    if fault or got.status:
        return None if got == fault else f"picture: model {fault}, program {got}"
    return difference_of_picture(got.text, WIDTH if width is None else width, timeline)
