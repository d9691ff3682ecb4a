"""Cases of motions in `ckrt debug`: a disk, breakpoints and watches of what its run does, and ways on and back from some positions."""
import subprocess
from dataclasses import dataclass

from cases.debugged import TIME_LIMIT
from cases.glances import recording_of
from cases.histories import recorded_disk
from cases.mistakes import drawn_mistake
from model.mistyped import HELP, LIST, answer_to, kinds_of_mistakes, text_of_packet, with_lists
from model.motions import (ACCESSES, BEGIN, CHANGES, END, LOADS, Steps, Stops, backward, before_end, named, next_step, onward,
                           text_of_stop, thread_of_stop, threads_at, who_ended)
from model.stubs import answers_in, frame, is_answered, line_of_events, monitor, position_text, shown_at_first

MOTIONS = {"vCont;c": onward, "bc": backward}


@dataclass
class MovedCase:
    """The ways are lists of motions, each from a position, None where the session begins, and of what is mistyped between them."""
    contents: bytes
    stops: Stops
    ways: list

    def disk(self):
        return bytearray(self.contents)


def place_at_first(recording):
    """Where the session begins, and whom its stop names. Where an older area leads elsewhere than to the last checkpoint, the session is asked to
    begin at that, as it says itself, by `--at`."""
    return (recording.first, 0), shown_at_first(recording.machine, recording.events if recording.is_misled else ())


def words_at_first(recording):
    return ["--at", str(recording.checkpoint)] if recording.is_misled else []


def steps_of(recording):
    looker = recording.show(Steps())
    looker.end_event()
    return looker.steps


def ender_of(recording):
    """The thread that ended the program; None where it hasn't ended."""
    looker = Steps()
    machine = recording.made_up_to(looker)
    return who_ended(machine, looker.steps)


def moved_case(chance, case):
    disk = recorded_disk(chance, case)
    recording, fault = recording_of(disk)
    steps = [] if fault else steps_of(recording)
    if not steps:
        return MovedCase(bytes(disk), Stops([], []), [])
    changed = sorted({address for step in steps for address in step.changed}) or [0x2000]
    places = chance.sample(sorted({step.place for step in steps if step.place % 4 == 0}), chance.choice([0, 1, 1]))
    watches = [drawn_watch(chance, steps, changed) for _ in range(chance.choice([0, 1, 1, 2]))]
    ways = [(chance.choice(steps).before, chance.choices(list(MOTIONS), k=chance.choice([1, 2, 4]))) for _ in range(3)]
    ways += [((recording.first, 0), ["vCont;c"] * 3), ((recording.whole, 0), ["bc"] * 2)]
    if chance.random() < 0.6:
        ways.insert(0, (None, chance.choices(list(MOTIONS), k=chance.choice([1, 2]))))
    return MovedCase(bytes(disk), Stops(places, watches), [(place, with_mistakes(chance, motions)) for place, motions in ways])


def drawn_watch(chance, steps, changed):
    """Of any kind; of loads and accesses at a byte that some step loads or stores to, where there is one."""
    kind = chance.choice([CHANGES, CHANGES, LOADS, ACCESSES])
    accessed = sorted({address for step in steps for address in step.loaded | (step.stored if kind == ACCESSES else frozenset())})
    address = chance.choice(changed if kind == CHANGES or not accessed else accessed)
    return address - chance.choice([0, 0, 1]), chance.choice([1, 1, 2, 4]), kind


def with_mistakes(chance, motions):
    """Before some of the motions something is mistyped."""
    return [packet for motion in motions for packet in [*[drawn_mistake(chance)[0] for _ in range(chance.choice([0, 0, 1, 2]))], motion]]


def packets_of(case):
    """Behind each motion it is asked where the session stands."""
    asked = []
    for place, motions in case.ways:
        asked += [] if place is None else [monitor(f"goto {position_text(place)}")]
        for motion in motions:
            asked += [motion, monitor("events")]
    return ["QStartNoAckMode", *case.stops.packets(), *asked, HELP, "D"]


def named_at(steps, place, before):
    """Whom a stop at a place names, where the one before it named a thread."""
    step = next_step(steps, place)
    return named(step and step.thread, threads_at(steps, place), before)


def told_at(answer, thread):
    """At an end of the history the thread is named that a stop there names."""
    return text_of_stop(answer, thread) if answer in (BEGIN, END) else answer


def expected_motions(case, recording):
    """Of each packet the answer, with what the console is told."""
    steps, ends = steps_of(recording), ((recording.first, 0), (recording.whole, 0))
    (place, before), ender = place_at_first(recording), ender_of(recording)
    expected = [("", "OK")] * (1 + len(case.stops.packets()))
    for begin, motions in case.ways:
        if begin is not None:
            place, before = begin, named_at(steps, begin, before)
            expected.append((line_of_events(place, (recording.first, recording.whole)), "OK"))
        for motion in motions:
            if motion in MOTIONS:
                place, answer = MOTIONS[motion](steps, case.stops, place, ends[motion == "vCont;c"])
                answer = told_at(answer, named_at(steps, place, before_end(answer, ender, before)))
                before = thread_of_stop(answer)
                expected.append(("", answer))
            else:
                expected.append(answer_to(bytes.fromhex(motion.partition(",")[2])))
            expected.append((line_of_events(place, (recording.first, recording.whole)), "OK"))
    return [*expected, (LIST, "OK"), ("", "OK")]


def difference_of_moved(ckrt, case, path, tally):
    """None, or the first packet whose answer isn't as expected."""
    path.write_bytes(case.contents)
    recording, fault = recording_of(case.contents)
    if fault:
        return None
    packets, expected = packets_of(case), expected_motions(case, recording)
    done = subprocess.run([ckrt, "debug", path, *words_at_first(recording)], input=b"".join(map(frame, packets)), capture_output=True, timeout=TIME_LIMIT)
    got = answers_in(done.stdout)
    tally.update(kinds_of_mistakes(expected))
    for number, (packet, wanted, there) in enumerate(zip(packets, with_lists(packets, expected, got), got)):
        if packet in MOTIONS:
            tally["motion", f"{packet} {there[1].partition(':')[0].partition('thread')[0]}"] += 1
        if not is_answered(wanted, there):
            return f"packet {number}, {text_of_packet(packet)}: model {wanted}, program {there}"
    return None if len(got) == len(expected) else f"{len(expected)} answers of the model, {len(got)} of the program"
