"""Cases of `ckrt debug`: disks with recorded events, and positions at which is asked for threads, registers, memory and the listing; and
disks whose events aren't all accepted at their turn, or whose older area fits and leads elsewhere than to the last checkpoint."""
import re
import subprocess
from dataclasses import dataclass, field

from cases.damage import refuse_event
from cases.glances import recording_of
from cases.histories import recorded_disk
from cases.mistakes import drawn_mistake
from cases.older_areas import fits_older, mislead
from model.begun import LINES, Begun, makes_events
from model.mistyped import HELP, LIST, kinds_of_mistakes, text_of_packet, with_lists
from model.recovery import Unrecovered
from model.stubs import Look, Visits, answers_in, frame, is_answered, known_threads, line_of_events, monitor, shown_at_first, told_threads

TIME_LIMIT = 60
NOWHERE = "no such position\n"
EVENTS = monitor("events")
MOTIONS = ["vCont;c", "vCont;s:1", "vCont;s:2", "vCont;r1000,2000:1", "bc", "bs"]
COMMANDS = [monitor("fork"), monitor("live 1"), monitor("live 0007"), monitor("event tick 1"), monitor("event place 0 1")]
SETTINGS = [("Hc1", "", "OK"), ("Hc3f", "", "OK"), ("Z0,1000,4", "", "OK"), ("Z2,2000,4", "", "OK"), ("z1,1000,4", "", "OK"),
            ("Z3,2000,4", "", "OK"), ("Z4,2000,4", "", "OK"), ("z3,2000,4", "", "OK"), ("z4,3000,1", "", "OK"), (monitor("limit 7"), "limit 7\n", "OK"), ("M2000,1:00", "", "E1e"), ("vRun;00", "", "")]


@dataclass
class DebuggedCase:
    """`first_looks` are asked where the session begins, and then the settings are made, for neither of which an event is made. The first of the
    `makers` has them made, but for those that only ask which there are. `looks` are asked by going there. `at` begins the session elsewhere."""
    contents: bytes
    looks: list = field(default_factory=list)
    nowhere: list = field(default_factory=list)
    first_looks: list = field(default_factory=list)
    settings: list = field(default_factory=list)
    makers: list = field(default_factory=list)
    is_acknowledged: bool = False
    at: int | None = None

    def disk(self):
        return bytearray(self.contents)


def drawn_look(chance, position, pages, is_event=True):
    reads = [(chance.choice([0, 4095, 4096, 0x2000, 0xF000, 4096 * pages - chance.choice([0, 1, 8]), chance.randrange(1 << 32)]),
              chance.choice([1, 4, 16, 64, 2048, 4000])) for _ in range(2)]
    mistyped = [drawn_mistake(chance, is_event) for _ in range(chance.choice([0, 1, 2, 4]))]
    return Look(position, [*range(1, 7), chance.randrange(7, 65)], reads, mistyped)


def debugged_case(chance, case):
    """Of some disks an event in use is refused, most of them recover otherwise. Of some the older area leads elsewhere, and of a few both.
    Where it leads elsewhere and the counts are high, the session goes on."""
    kind = chance.random()
    disk = disk_with_older(chance, case) if kind < 0.4 else recorded_disk(chance, case)
    if kind < 0.25:
        mislead(chance, disk)
    if 0.2 < kind < 0.3 or kind > 0.8:
        refuse_event(chance, disk)
    recording, fault = recording_of(disk)
    ends = ends_of(disk) if fault or recording.is_misled else (recording.first, recording.checkpoint, recording.whole)
    asked = asked_at_first(chance, case, disk, ends)
    if fault or asked.at is None and Begun(disk).fault:
        asked.makers = drawn_makers(chance, ends)
        return asked
    return visiting_case(chance, case, asked, recording)


def disk_with_older(chance, case):
    """Mostly one whose older area fits."""
    for _ in range(3):
        disk = recorded_disk(chance, case)
        if fits_older(disk):
            break
    return disk


def asked_at_first(chance, case, disk, ends):
    """Looks and settings where the session begins; at times that is behind some events, or where no session begins."""
    first, saved, whole = ends
    at = chance.choice([*[None] * 14, first, whole, saved, chance.choice([whole + 1, max(saved - 1, 0), chance.randint(first, whole)])])
    begin = first if at is None else at
    looks = [drawn_look(chance, (begin, 0), case.geometry.pages, is_event=False) for _ in range(chance.choice([1, 1, 2]))]
    return DebuggedCase(bytes(disk), first_looks=looks, settings=chance.sample(SETTINGS, chance.randrange(5)), at=at,
                        is_acknowledged=chance.random() < 0.3)


def ends_of(disk):
    """How many events led to the begin of the history, to its checkpoint and to its end, as far as is known before they are made."""
    try:
        begun = Begun(disk)
        return begun.first, begun.checkpoint, begun.whole
    except Unrecovered:
        return 0, 0, 0


def drawn_makers(chance, ends):
    """Mostly one or two, of which the first is to end the session."""
    first, saved, whole = ends
    places = [monitor(f"{name} {place}") for name in ("goto", "until") for place in (first, saved, f"{whole}+1", whole + 1)]
    kinds = [MOTIONS, MOTIONS, COMMANDS, places]
    return [chance.choice(chance.choice(kinds)) for _ in range(chance.choice([0, 1, 1, 1, 2]))]


def visiting_case(chance, case, asked, recording):
    """Positions at both ends and between, and some that aren't there."""
    first, whole = recording.first, recording.whole
    steps = recording.show(Visits([], (first, whole))).steps
    places = [(first, 0), (whole, 0), *[(recording.checkpoint, 0)] * chance.choice([0, 1])]
    for _ in range(4 if steps else 0):
        event = chance.choice(list(steps))
        places.append((event, chance.randrange(steps[event])))
    nowhere = [(event, steps[event] + chance.choice([0, 1])) for event in chance.sample(list(steps), min(2, len(steps)))]
    nowhere += [(whole, 1), (whole + 1, 0), (whole, 2 ** 32 - 1), (2 ** 64 - 1, 2 ** 32 - 1), *([(first - 1, 0)] if first else [])]
    chance.shuffle(places)
    asked.first_looks = asked.first_looks[:chance.choice([0, 1, 1, 2])]
    asked.makers = [EVENTS] * chance.choice([0, 1, 1])
    asked.looks, asked.nowhere = [drawn_look(chance, place, case.geometry.pages) for place in places], nowhere
    return asked


def packets_of(case):
    """gdb leaves in the end."""
    packets = [packet for look in case.first_looks for packet in look.first_packets()]
    packets += [packet for packet, _, _ in case.settings] + [HELP] + case.makers
    packets += [packet for look in case.looks for packet in look.packets()]
    packets += [monitor(f"goto {event}+{step}") for event, step in case.nowhere]
    return [*([] if case.is_acknowledged else ["QStartNoAckMode"]), *packets, "D"]


def expected_at_first(case, machine, ends, shown):
    """Before anybody has moved. Whom the stop names is examined first, and then whom gdb has named last of those that are told."""
    answers, examined = [], shown
    for look in case.first_looks:
        answers += look.first_answers(machine, ends, shown, examined)
        examined = next((number for number in reversed(look.threads) if number in told_threads(machine, look.known)), examined)
    return answers + [(told, payload) for _, told, payload in case.settings] + [(LIST, "OK")]


def expected_visits(case, recording, begin, shown):
    """It is told which events there are. Then in the order of the looks; then at positions that aren't there: it is told where the session
    stands, and nothing changes."""
    ends = recording.first, recording.whole
    visits = Visits(case.looks, ends)
    visits.visit((recording.whole, 0), recording.made_up_to(visits), None)
    stays = NOWHERE + line_of_events(case.looks[-1].position if case.looks else begin, ends)
    answers = [(line_of_events(begin, ends), "OK")] * len(case.makers)
    return [*answers, *[answer for told in visits.answers(shown) for answer in told], *[(stays, "OK")] * len(case.nowhere)]


def unlike(packets, expected, got):
    """None, or the first packet whose answer isn't as expected."""
    for packet, wanted, there in zip(packets, expected, got):
        if not is_answered(wanted, there):
            return f"packet {text_of_packet(packet)}: model {wanted}, program {there}"
    if len(got) != len(expected):
        return f"{len(expected)} answers of the model, {len(got)} of the program"
    return None


@dataclass
class Outcome:
    """Of a session: its answers, what it says of frames that arrive, its status, the fault that it tells, and the line in front of that. That
    has to end as is told here, where a page tells it."""
    answers: list
    signs: str
    status: int = 0
    fault: str = ""
    line: str = ""


def outcome_of_model(case):
    """A session lasts to gdb's leave, or to the first packet for which events are made that are wrong; of that one nothing but its arrival is
    told. With `at` they are made before, and where one that is in use is refused none begins."""
    try:
        begun = Begun(case.contents)
    except Unrecovered as fault:
        return none_begun(f"ckrt: {fault}")
    if case.at is not None:
        return outcome_at(case)
    shown = shown_at_first(begun.machine)
    know(case, begun.machine, begun.events)
    answers = [*([] if case.is_acknowledged else [("", "OK")]), *expected_at_first(case, begun.machine, (begun.first, begun.whole), shown)]
    if begun.fault is None:
        return left(case, [*answers, *expected_visits(case, recording_of(case.contents)[0], (begun.first, 0), shown)])
    if any(map(makes_events, packets_of(case))):
        return Outcome(answers, signs_of(case, len(answers) + 1), 1, f"ckrt: {begun.fault}", LINES.get(begun.fault, ""))
    return left(case, answers)


def outcome_at(case):
    """An older area that leads elsewhere is no part of the history then. The first stop names whose step is next there, if anybody's is."""
    recording, fault = recording_of(case.contents)
    if fault or not recording.first <= case.at <= recording.whole:
        return none_begun(fault.fault if fault else "ckrt: Range")
    return outcome_in(case, recording)


def outcome_in(case, recording):
    """Where the recorded run has the event at which the session begins."""
    machine = recording.made_up_to(Visits([], (recording.first, case.at)), None, case.at)
    shown = shown_at_first(machine, recording.events[case.at - recording.first:])
    know(case, recording.machine, recording.events)
    answers = [*([] if case.is_acknowledged else [("", "OK")]), *expected_at_first(case, machine, (recording.first, recording.whole), shown)]
    return left(case, [*answers, *expected_visits(case, recording, (case.at, 0), shown)])


def know(case, begin, events):
    """Which threads gdb knows from the first stop on, at each look."""
    for look in case.first_looks + case.looks:
        look.known = known_threads(begin, events)


def none_begun(fault):
    return Outcome([], "", 1, fault)


def left(case, answers):
    """The session in the end of which gdb leaves."""
    return Outcome([*answers, ("", "OK")], signs_of(case, len(answers) + 1))


def signs_of(case, heard):
    """Of so many packets each arrives whole; once that is agreed on, nothing is said of it."""
    return "+" * (heard if case.is_acknowledged else 1)


def outcome_of_program(ckrt, case, path, option=()):
    words = [ckrt, "debug", *option, path, *([] if case.at is None else ["--at", str(case.at)])]
    done = subprocess.run(words, input=b"".join(map(frame, packets_of(case))), capture_output=True, timeout=TIME_LIMIT)
    signs = re.sub(r"\$[^#]*#..", "", done.stdout.decode())
    *_, line, fault = ["", "", *done.stderr.decode().splitlines()]
    return Outcome(answers_in(done.stdout), signs, done.returncode, fault, line)


def difference_of_outcomes(packets, expected, got):
    """None, or where two sessions differ."""
    if (got.status, got.fault, got.signs) != (expected.status, expected.fault, expected.signs):
        return f"model {expected.status, expected.fault, expected.signs}, program {got.status, got.fault, got.signs}"
    if not got.line.endswith(expected.line):
        return f"the fault's line: model {expected.line!r}, program {got.line!r}"
    return unlike(packets, with_lists(packets, expected.answers, got.answers), got.answers)


def kind_of_outcome(case, outcome):
    """With what it was that had the events made."""
    if not outcome.fault:
        return "shown" if case.looks else "shown before a motion"
    by = ("by " + (text_of_packet(case.makers[0]).strip("'").split()[0] if case.makers[0].startswith("q") else "a motion")) if outcome.answers else ""
    return f"{outcome.fault.removeprefix('ckrt: ')} {by}".strip()


def kind_of_history(contents):
    """Where it begins, as far as any session does."""
    try:
        begun = Begun(contents)
    except Unrecovered:
        return "none"
    if begun.fault:
        return f"{begun.fault}, {'an event in use' if begun.is_refused else 'the older journal'}"
    return "from the older area" if begun.first < begun.checkpoint else "from the checkpoint"


def difference_of_debugged(ckrt, case, path, tally):
    """None, or where they differ. The file keeps its bytes."""
    path.write_bytes(case.contents)
    expected, got = outcome_of_model(case), outcome_of_program(ckrt, case, path)
    tally["debug", kind_of_outcome(case, expected)] += 1
    tally["history of debug", kind_of_history(case.contents)] += 1
    tally.update(kinds_of_mistakes(expected.answers))
    difference = difference_of_outcomes(packets_of(case), expected, got)
    return difference or (None if path.read_bytes() == case.contents else "debug changed the disk's bytes")
