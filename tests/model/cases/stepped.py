"""Cases of motions in `ckrt debug` that step one thread, on or back, and of motions that a position or a number of steps ends."""
import subprocess
from collections import Counter
from dataclasses import dataclass, field

from cases.debugged import TIME_LIMIT
from cases.glances import recording_of
from cases.histories import recorded_disk
from cases.mistakes import drawn_mistake, spelled
from cases.moved import drawn_watch, ender_of, place_at_first, steps_of, told_at, words_at_first
from model.mistyped import HELP, LIST, kinds_of_mistakes, text_of_packet, with_lists
from model.motions import (CHANGE, Stops, backward, before_end, end_of_steps, named, next_step, onward, own_step, stepped, stepped_back,
                           text_of_stop, thread_of_stop, threads_at)
from model.stubs import answers_in, frame, is_answered, line_of_events, monitor, position_text

LIMITS = [1, 1, 3, 20, 100, 4_294_967_295]
UNTIL, LIMIT, PLAIN = "T00", "T02", "T05"
LIMITED = "ended by the limit of steps, 2000000000 at first: the same command goes on, and monitor limit N sets another\n"
ANY, ALL = 0, -1
STEPPING = {"step": ["vCont;s:{}", "vCont;s:{};c", "vCont;c;s:{}", "vCont;S05:{};c:-1"], "range": ["vCont;r1000,2000:{}"],
            "bs": ["bs"], "bc": ["bc"], "vCont;c": ["vCont;c", "vCont;C05", "vCont;c:-1"]}


@dataclass
class SteppedCase:
    """Packets, and of each the answer, with what the console is told; the words begin the session elsewhere."""
    contents: bytes
    asked: list
    words: list = field(default_factory=list)

    def disk(self):
        return bytearray(self.contents)


class Way:
    """Draws what is asked, and follows where the session stands, and which thread its last stop named."""

    def __init__(self, chance, recording, steps, stops):
        self.chance, self.steps, self.stops = chance, steps, stops
        self.first, self.whole, self.ender = recording.first, recording.whole, ender_of(recording)
        self.asked = [(packet, ("", "OK")) for packet in stops.packets()]
        (self.place, self.named), self.until, self.limit = place_at_first(recording), None, None
        self.counts = Counter(step.before[0] for step in steps)

    def tell(self, command, text):
        self.asked.append((monitor(self.written(command)), (text + "\n", "OK")))

    def written(self, command):
        return spelled(self.chance, command)

    def mistype(self):
        """Nothing comes of it, and that is seen in what the next motions do."""
        self.asked.append(drawn_mistake(self.chance))

    def place_text(self):
        return line_of_events(self.place, (self.first, self.whole)).strip()

    def drawn_place(self):
        return self.chance.choice([*[step.before for step in self.chance.choices(self.steps, k=6)], (self.first, 0), (self.whole, 0)])

    def why(self):
        """A session begins with a plain stop, and a goto ends with one."""
        self.asked.append(("?", ("", text_of_stop(PLAIN, self.named))))

    def goto(self):
        self.place = self.drawn_place()
        self.tell(f"goto {position_text(self.place)}", self.place_text())
        self.named = self.named_at(self.place, self.named)
        self.why()

    def set_until(self):
        """Where there is no such position nothing changes."""
        place = self.chance.choice([self.drawn_place(), self.drawn_place(), self.drawn_place(), (self.whole, 1), (self.whole + 1, 0)])
        if place > (self.whole, 0):
            return self.tell(f"until {position_text(place)}", "no such position")
        self.until = place
        ways = "here" if place == self.place else "continue goes there" if place > self.place else "reverse-continue goes there"
        return self.tell(f"until {position_text(place)}", ways)

    def set_limit(self):
        self.limit = self.chance.choice(LIMITS)
        self.tell(f"limit {self.limit}", f"limit {self.limit}")

    def named_at(self, place, before):
        """Whom a stop there names; where nobody's step is next the one that was to step, or that of the stop before."""
        step = next_step(self.steps, place)
        return named(step and step.thread, threads_at(self.steps, place), before)

    def drawn_thread(self):
        """One that is there, and at times one that isn't; any or all are that of the last stop."""
        there = sorted(threads_at(self.steps, self.place))
        absent = [ANY, ALL, *[number for number in (1, 2, 3, 63) if number not in there]]
        return self.chance.choice([*there * 2, *absent])

    def meant(self, thread):
        return thread if thread in threads_at(self.steps, self.place) else self.named

    def move(self):
        """Behind a motion it is asked where the session stands, and why."""
        thread = self.drawn_thread()
        kind = self.chance.choice(["vCont;c", "bc", "step", "step", "range", "bs", "bs"])
        packet = self.chance.choice(STEPPING[kind]).format("-1" if thread == ALL else f"{thread:x}")
        self.place, answer = self.motion(kind, self.meant(thread))
        self.named = thread_of_stop(answer)
        self.asked += [(f"Hc{'-1' if thread == ALL else f'{thread:x}'}", ("", "OK"))] * (kind == "bs")
        told = LIMITED if answer.startswith(LIMIT) else ""
        self.asked += [(packet, (told, answer)), (monitor("events"), (self.place_text() + "\n", "OK")), ("?", ("", answer))]

    def motion(self, kind, thread):
        """Where it comes to, and what is told of it. A range is stepped as one step is."""
        arguments, first, last = (self.steps, self.stops, self.place), (self.first, 0), (self.whole, 0)
        match kind:
            case "vCont;c":
                return self.ended(*onward(*arguments, last), True, self.named)
            case "bc":
                return self.ended(*backward(*arguments, first), False, self.named)
            case "bs":
                return self.ended(*stepped_back(*arguments, first, thread), False, thread)
        own = own_step(self.steps, self.place, thread)
        return self.ended(*stepped(*arguments, last, thread), True, thread, own and own.before)

    def ended(self, came, answer, is_onward, before, passed=None):
        """With the thread that the stop names: where nobody's step is next the one before, which was to step, or that of the last stop; or that
        which ended the program."""
        came, answer = self.bounded(came, answer, is_onward, passed)
        thread = self.named_at(came, before_end(answer, self.ender, before))
        return came, text_of_stop(answer, thread) if answer in (UNTIL, LIMIT) else told_at(answer, thread)

    def bounds(self, is_onward):
        """Where a motion ends at the latest, and why; first what is told where both end it."""
        end = end_of_steps(self.counts, self.place, self.limit, is_onward, (self.first, self.whole)) if self.limit else None
        return [(place, why) for place, why in [(self.until, UNTIL), (end, LIMIT)] if place]

    def bounded(self, came, answer, is_onward, passed):
        """Where a motion ends, and why. No bound ends it at the place that is passed, where the step that was asked for is next: that is
        made too, or its change is told.

        Where a motion ends anyway no bound is told. But onward a change ends it behind its step, so it goes on just before that,
        and a bound there comes first.
        """
        reached = [(place, why) for place, why in self.bounds(is_onward) if self.is_between(place, came) and place != passed]
        if not reached:
            return came, answer
        end = (min if is_onward else max)(place for place, _ in reached)
        if end == came and not (is_onward and answer.startswith(CHANGE)):
            return came, answer
        return end, next(why for place, why in reached if place == end)

    def is_between(self, place, came):
        """Whether a motion comes by this place."""
        return self.place < place <= came or came <= place < self.place


def stepped_case(chance, case):
    disk = recorded_disk(chance, case)
    recording, fault = recording_of(disk)
    steps = [] if fault else steps_of(recording)
    if not steps:
        return SteppedCase(bytes(disk), [])
    changed = sorted({address for step in steps for address in step.changed}) or [0x2000]
    aligned = sorted({step.place for step in steps if step.place % 4 == 0})
    places = chance.sample(aligned, min(len(aligned), chance.choice([0, 1, 1, 2])))
    watches = [drawn_watch(chance, steps, changed) for _ in range(chance.choice([0, 0, 1, 2]))]
    way = Way(chance, recording, steps, Stops(places, watches))
    way.why()
    for number in range(6):
        for change, share in ((way.goto, 1 if number else 0.4), (way.set_until, 0.3), (way.set_limit, 0.3)):
            if chance.random() < share:
                change()
            if chance.random() < 0.3:
                way.mistype()
        for _ in range(chance.choice([1, 3, 5])):
            way.move()
    return SteppedCase(bytes(disk), way.asked, words_at_first(recording))


def difference_of_stepped(ckrt, case, path, tally):
    """None, or the first packet whose answer isn't as expected. Disks that don't recover have their own kind."""
    if not case.asked:
        return None
    path.write_bytes(case.contents)
    packets = ["QStartNoAckMode", *[packet for packet, _ in case.asked], HELP, "D"]
    expected = [("", "OK"), *[answer for _, answer in case.asked], (LIST, "OK"), ("", "OK")]
    done = subprocess.run([ckrt, "debug", path, *case.words], input=b"".join(map(frame, packets)), capture_output=True, timeout=TIME_LIMIT)
    got = answers_in(done.stdout)
    tally.update(kinds_of_mistakes(expected))
    for number, (packet, wanted, there) in enumerate(zip(packets, with_lists(packets, expected, got), got)):
        if packet.startswith(("vCont", "b")):
            tally["motion of a thread", f"{packet.partition(':')[0]} {there[1].partition(':')[0].partition('thread')[0]}"] += 1
        if not is_answered(wanted, there):
            return f"packet {number}, {text_of_packet(packet)}: model {wanted}, program {there}"
    return None if len(got) == len(expected) else f"{len(expected)} answers of the model, {len(got)} of the program"
