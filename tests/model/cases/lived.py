"""Cases of sessions that go another way on: cuts, events and a drive's turns behind them, and motions and looks at what came of it."""
import subprocess
from dataclasses import dataclass

from cases.debugged import NOWHERE
from cases.glances import recording_of
from cases.guests import RETURN
from cases.histories import recorded_disk
from cases.hunted import Hunted
from cases.mistakes import drawn_mistake, spelled
from cases.moved import told_at
from cases.sharers import Sharer
from cases.streams import malformed_line
from model.assembler import Jump, image_of
from model.listing import lines_of_state
from model.mistyped import HELP, LIST, kinds_of_mistakes, text_of_packet, with_lists
from model.motions import Stops, backward, before_end, onward, text_of_stop, thread_of_stop, who_ended
from model.stories import Story, TooLong
from model.stubs import answers_in, answers_of_thread, frame, is_answered, live_threads, memory_text, monitor, position_text, registers_text, told_threads

TIME_LIMIT = 60
MOTIONS = {"vCont;c": onward, "bc": backward}
MOST_STEPS = 4_000  # of a history in which motions are tried


class Living(Sharer):
    """None of its loops is long, but for jumps to their own place."""

    add_dump = Hunted.add_dump

    def __init__(self, chance):
        super().__init__(chance)
        self.program.items = [RETURN if isinstance(item, Jump) else item for item in self.program.items]
        self.image = image_of(self.program.words())

    def theme_weights(self):
        return {**super().theme_weights(), "stream": 3, "odd": 0.3}


@dataclass
class LivedCase:
    """Packets, and what the model expects of each; the words begin the session elsewhere."""
    contents: bytes
    words: list
    asked: list

    def disk(self):
        return bytearray(self.contents)


class Script:
    """Draws what is asked, with a look at where the session stands."""

    def __init__(self, chance, story):
        self.chance, self.story, self.asked = chance, story, []
        self.stops, self.stopped = Stops([], []), None

    def ask(self, packet, expected):
        self.asked.append((packet, expected))

    def tell(self, command, text):
        self.ask(monitor(command), (text, "OK"))

    def written(self, command):
        return spelled(self.chance, command)

    def mistype(self):
        """The history stays, and where it stands."""
        self.ask(*drawn_mistake(self.chance))
        self.events()

    def place(self):
        story = self.story
        event = self.chance.choice([story.first, story.last, story.recorded, self.chance.randint(story.first, story.last)])
        if event == story.last:
            return event, 0
        return event, self.chance.choice([0, self.chance.randrange(story.positions[event - story.first])])

    def goto(self):
        self.go(self.place())

    def go(self, place):
        """Where it goes is told, and the stop behind it is a plain one."""
        self.story.goto(place)
        self.tell(self.written(f"goto {position_text(place)}"), self.story.place_text())
        self.why()

    def why(self, is_stop=True):
        """Whom a plain stop names is examined. Behind what was no stop the last one is told again, that of a motion, too."""
        if is_stop:
            self.stopped = "", text_of_stop("T05", self.story.named)
        self.ask("?", self.stopped)
        if is_stop:
            self.ask("g", ("", registers_text(self.story.machine_at(self.story.position), self.story.named)))

    def goto_nowhere(self):
        story = self.story
        places = [(story.last + 1, 0), (story.last, 1), *[(story.last - 1, steps) for steps in story.positions[-1:]]]
        self.tell(f"goto {position_text(self.chance.choice(places))}", NOWHERE + story.place_text())

    def events(self):
        self.tell("events", self.story.place_text())

    def fork(self):
        self.tell("fork", self.story.fork())

    def goto_end(self):
        self.go((self.story.last, 0))

    def event(self):
        """What an event leads to is a plain stop, too, and where none is made there is none."""
        line, before = self.line(), self.story.last
        self.tell(f"event {line}", self.story.add(line))
        self.why(self.story.last > before)

    def line(self):
        chance, hart = self.chance, self.chance.randrange(3)
        ready = [number for number in live_threads(self.story.end) if self.story.end.is_ready(number)] or [1]
        return chance.choice([f"place {hart} {chance.choice(ready)}", f"run {hart} {chance.choice([1, 5, 50, 65535])}", f"tick {chance.choice([1, 9])}",
                              f"place {chance.randrange(8)} {chance.choice(ready)}", f"run 0 {chance.choice([1, 5, 50])}",
                              f"runlong {hart} {chance.choice([3, 70000, 1000000])}", f"in {chance.choice(['41', '4142', '4A' * 64])}",
                              chance.choice(["eof", "tick 4294967295", "commit", "auto 0 5", "quit", "checkpoint", "", "in 4", "run 0 0"]),
                              "".join(letter for letter in malformed_line(chance).decode("latin-1") if " " <= letter < "\x7f")[:200]])

    def live(self):
        """It is a plain stop at the end of the history, also where it makes nothing."""
        most, is_stop = self.chance.choice([1, 1, 2, 3, 5, 20, 100]), self.story.position == (self.story.last, 0)
        self.tell(self.written(f"live {most}"), self.story.live(most))
        self.why(is_stop)

    def inspect(self):
        story = self.story
        machine = story.machine_at(story.position)
        self.tell("inspect", "".join(line + "\n" for line in lines_of_state(story.position[0], machine, machine.hart_count)))

    def look(self):
        """At threads and memory."""
        machine = self.story.machine_at(self.story.position)
        self.ask("qfThreadInfo", ("", "m" + ",".join(f"{number:x}" for number in told_threads(machine, self.story.known))))
        for number in told_threads(machine, self.story.known)[:4]:
            packets = f"T{number:x}", f"qThreadExtraInfo,{number:x}", f"Hg{number:x}", "g"
            for packet, answer in zip(packets, answers_of_thread(machine, number, number, self.story.known)):
                self.ask(packet, answer)
        address = self.chance.choice([0x2000, 0x1000, 0xF000])
        self.ask(f"m{address:x},800", ("", memory_text(machine.memory, address, 0x800)))

    def motion(self):
        """Breakpoints and watches are of what the history does."""
        story = self.story
        if sum(story.positions) > MOST_STEPS:
            return
        steps, motion = story.steps(), self.chance.choice(list(MOTIONS))
        ends = (story.first, 0), (story.last, 0)
        story.position, answer = MOTIONS[motion](steps, self.stops, story.position, ends[motion == "vCont;c"])
        before = before_end(answer, who_ended(story.end, steps), story.named)
        answer = told_at(answer, story.named_at(story.position, before))
        story.named = thread_of_stop(answer)
        self.stopped = "", answer
        self.ask(motion, self.stopped)
        self.events()

    def stop_at(self):
        steps = self.story.steps() if sum(self.story.positions) <= MOST_STEPS else []
        places = sorted({step.place for step in steps if step.place % 4 == 0})
        if places and len(self.stops.places) < 2:
            self.stops.places.append(self.chance.choice(places))
            self.ask(self.stops.packets()[-1], ("", "OK"))

    def play(self, count):
        kinds = {self.goto: 4, self.goto_nowhere: 1, self.events: 1, self.fork: 4, self.goto_end: 4, self.event: 8, self.live: 8, self.mistype: 6,
                 self.inspect: 3, self.look: 2, self.motion: 4, self.stop_at: 2}
        self.why()
        try:
            for kind in self.chance.choices(list(kinds), kinds.values(), k=count):
                kind()
        except TooLong:
            return
        self.goto_end()
        self.inspect()
        self.look()


def lived_case(chance, case):
    disk = recorded_disk(chance, case)
    recording, fault = recording_of(disk)
    if fault:
        return LivedCase(bytes(disk), [], [])
    at = chance.choice([None, None, recording.first, recording.whole, chance.randint(recording.first, recording.whole)])
    at = recording.checkpoint if recording.is_misled and at is None else at
    try:
        script = Script(chance, Story(recording, at))
    except TooLong:
        return LivedCase(bytes(disk), [], [])
    script.play(chance.choice([10, 15, 20]))
    return LivedCase(bytes(disk), [] if at is None else ["--at", str(at)], script.asked)


def packets_of(case):
    return ["QStartNoAckMode", *[packet for packet, _ in case.asked], HELP, "D"]


def difference_of_answers(case, got, tally):
    """None, or the first packet whose answer isn't as expected."""
    packets, expected = packets_of(case), [("", "OK"), *[answer for _, answer in case.asked], (LIST, "OK"), ("", "OK")]
    tally.update(kinds_of_mistakes(expected))
    for number, (packet, wanted, there) in enumerate(zip(packets, with_lists(packets, expected, got), got)):
        if wanted[0] and LIST not in expected[number][0]:
            lines = [] if packet.startswith(monitor("inspect")) else wanted[0].splitlines()
            tally.update(("told by monitor", kind_of_line(line)) for line in lines)
        if not is_answered(wanted, there):
            return f"packet {number}, {text_of_packet(packet)}: model {wanted}, program {there}"
    return None if len(got) == len(expected) else f"{len(expected)} answers of the model, {len(got)} of the program"


def difference_of_lived(ckrt, case, path, tally):
    """None, or where they differ. Disks that don't recover have their own kind."""
    if not case.asked:
        return None
    path.write_bytes(case.contents)
    sent = b"".join(map(frame, packets_of(case)))
    done = subprocess.run([ckrt, "debug", path, *case.words], input=sent, capture_output=True, timeout=TIME_LIMIT)
    difference = difference_of_answers(case, answers_in(done.stdout), tally)
    return difference or (None if path.read_bytes() == case.contents else "debug changed the disk's bytes")


def kind_of_line(line):
    """Without the numbers of places."""
    return "event, recorded to" if "recorded to" in line else line.split()[0] if line.startswith("event") else line
