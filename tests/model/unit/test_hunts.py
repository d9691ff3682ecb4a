"""Hunts: outcomes of small guests by hand, switches, and the table."""
import tempfile
import unittest
from hashlib import sha256
from pathlib import Path

from model.abi import Call
from model.events import Eof, Input
from model.hunts import (Options, fold, is_chosen, is_fed, known_lines, line_of_kept, lines_of_table, refusal_of_keep, said_of, status_of,
                         text_of_outcome)
from model.races import Pair, Races
from model.switches import switched
from unit.test_races import call, load, locked, recording_of

LOCK = Call.MUTEX_LOCK
WAITS = [  # of thread 2, how it is told
    (call(LOCK, 0x2000), "mutex 00002000 (thread 1 has it)"),
    ([*call(LOCK, 0x2004), *call(Call.COND_WAIT, 0x3000, 0x2004)], "condition 00003000"),
    (call(Call.BARRIER_WAIT, 0x4000), "barrier 00004000"), (call(Call.RWLOCK_RDLOCK, 0x5000), "read lock 00005000"),
    (call(Call.RWLOCK_WRLOCK, 0x5000), "write lock 00005000"),
]
HELD = [*call(LOCK, 0x2000), *call(Call.RWLOCK_WRLOCK, 0x5000), *call(Call.BARRIER_INIT, 0x4000, 2)]


class WithKeys(unittest.TestCase):
    def setUp(self):
        switch = switched(keys=True, long_runs=True)
        switch.__enter__()
        self.addCleanup(switch.__exit__, None, None, None)

    def comes_to(self, text, *turns, threads=1):
        self.assertEqual(text_of_outcome(fold(recording_of(turns, threads=threads)), 77), text)


class Outcomes(WithKeys):
    def test_exits(self):
        self.comes_to("exit 3, output e3b0c442", (1, call(Call.EXIT, 3)))
        digest = sha256(b"AB").hexdigest()[:8]
        self.comes_to(f"exit 0, output {digest}", (2, call(Call.PUTC, 65)), (1, [*call(Call.PUTC, 66), *call(Call.EXIT, 0)]))

    def test_outputs_ignored(self):
        """No digits of an output are told, whatever was put."""
        for code in (0, 3, 134):
            folded = fold(recording_of([(2, call(Call.PUTC, 65)), (1, call(Call.EXIT, code))], threads=1))
            self.assertEqual(text_of_outcome(folded, 77, True), f"exit {code}")
        self.assertEqual(text_of_outcome(fold(recording_of([(2, load(1))], threads=1)), 77, True), "fault of thread 2 at 00001028, LoadMisaligned")

    def test_faults(self):
        self.comes_to("fault of thread 2 at 00001028, LoadMisaligned", (2, load(1)))

    def test_deadlocks(self):
        """The last thread that could go on joins the other one."""
        for words, text in WAITS:
            self.comes_to(f"deadlock, thread 1 waits for the end of thread 2, thread 2 waits for {text}", (1, HELD), (2, words),
                          (1, call(Call.JOIN, 2)))
        text = "deadlock, thread 1 waits for mutex 00002000 (thread 2 has it), thread 2 waits for the end of thread 1"
        self.comes_to(text, (2, call(LOCK, 0x2000)),
                      (1, call(LOCK, 0x2000)), (2, call(Call.JOIN, 1)))

    def test_what_is_none(self):
        """Somebody is ready, waits for a moment, or for input."""
        joins = (1, call(Call.JOIN, 2))
        self.comes_to("no end within 77 steps or events", (1, call(LOCK, 0x2000)), joins)
        self.comes_to("no end within 77 steps or events", (2, call(Call.SLEEP_UNTIL, 9, 0)), joins)
        self.comes_to("no end within 77 steps or events", (1, call(LOCK, 0x2000)), (2, call(Call.MUTEX_TIMEDLOCK, 0x2000, 9, 0)), joins)
        self.comes_to("waits for input", (2, call(Call.GETC)), joins)

    def test_circles(self):
        """Who waits for whom in a circle is told, though others go on; a wait with a deadline is in none, and who only waits for one of them isn't told."""
        text = "no end within 77 steps or events"
        two = ", thread 2 waits for mutex 00002004 (thread 3 has it), thread 3 waits for mutex 00002000 (thread 2 has it)"
        first = [(2, call(LOCK, 0x2000)), (3, call(LOCK, 0x2004)), (2, call(LOCK, 0x2004))]
        self.comes_to(text + two, *first, (3, call(LOCK, 0x2000)), threads=3)
        self.comes_to(text, *first, (3, call(Call.MUTEX_TIMEDLOCK, 0x2000, 9, 0)), threads=3)
        self.comes_to(text + two, *first, (3, call(LOCK, 0x2000)), (4, call(LOCK, 0x2004)), threads=4)
        joined = ", thread 2 waits for the end of thread 3, thread 3 waits for mutex 00002000 (thread 2 has it)"
        self.comes_to(text + joined, (2, call(LOCK, 0x2000)), (3, call(LOCK, 0x2000)), (2, call(Call.JOIN, 3)), threads=3)
        self.comes_to(text, (2, call(LOCK, 0x2000)), (3, call(LOCK, 0x2000)), threads=3)

    def test_ended_threads(self):
        """They wait for nothing, and get their mutexes back as they wait for others."""
        wait = [*call(LOCK, 0x2000), *call(Call.COND_WAIT, 0x3000, 0x2000)]
        self.comes_to("deadlock, thread 1 waits for the end of thread 3, thread 3 waits for mutex 00002000 (thread 2 has it)", (3, wait),
                      (2, [*call(LOCK, 0x2000), *call(Call.COND_SIGNAL, 0x3000), *call(Call.THREAD_EXIT, 0)]),
                      (1, call(Call.JOIN, 3)), threads=2)


class Counts(WithKeys):
    def test_switches(self):
        """Of runs of other threads than the run before; a hart is none."""
        for turns, switches in [([], 0), ([(1, load())], 0), ([(2, load()), (2, load()), (1, load())], 2),
                                ([(2, load()), (1, load()), (2, load())], 3)]:
            self.assertEqual(fold(recording_of(turns, threads=1)).switches, switches)

    def test_steps(self):
        folded = fold(recording_of([(2, load()), (1, locked([]))], threads=1))
        self.assertEqual((folded.steps, folded.events, bytes(folded.output)), (16, 6, b""))
        self.assertEqual(fold(recording_of([(2, [*call(Call.GETC), *load()])], threads=1)).steps, 9)


class Inputs(WithKeys):
    def test_given(self):
        """At once, before all else, and the end behind it."""
        recording = recording_of([(1, load())], threads=0)
        self.assertTrue(is_fed(recording, None))
        self.assertFalse(is_fed(recording, b""))
        events = recording.events
        for given, data, is_so in [([Eof()], b"", True), ([Input(b"ab"), Eof()], b"ab", True), ([Eof()], b"ab", False), ([Eof()], None, False),
                                   ([Input(b"ab")], b"ab", False), ([Input(b"ab"), Eof()], b"abc", False)]:
            recording.events = [*given, *events]
            self.assertEqual(is_fed(recording, data), is_so)


class Said(WithKeys):
    def says(self, shown, output, *more):
        words = [word for byte in output for word in call(Call.PUTC, byte)]
        self.assertEqual(said_of(fold(recording_of([(1, [*words, *more])], threads=1))), shown, output)

    def test_last_lines(self):
        """The last one with a byte, of which 200 are shown, and all that isn't printable by its digits."""
        for output, shown in [(b"", None), (b"\n\n", None), (b"one\ntwo", "two"), (b"one\n\n", "one"), (b"one\n ", " "),
                              (b"\x1f ~\x7f\r\n", "\\x1f ~\\x7f\\x0d"), (b"\xff\\", "\\xff\\")]:
            self.says(shown, output, *load(1))
            self.says(shown, output, *call(Call.EXIT, 3))
            self.says(None, output, *call(Call.EXIT, 0))

    def test_long_lines(self):
        folded = fold(recording_of([(1, load(1))], threads=1))
        for size, shown in [(200, "x" * 200), (201, "x" * 200 + ".."), (900, "x" * 200 + "..")]:
            folded.output = bytearray(b"before\n" + b"x" * size + b"\n")
            self.assertEqual(said_of(folded), shown)

    def test_table(self):
        """What the first seed's run said stands below its outcome."""
        outcomes = {8: "exit 1, output 1", 9: "exit 1, output 1", 10: "deadlock"}
        lines = lines_of_table("a.bin", outcomes, Options(16, 2, 99), {8: "a", 9: "b", 10: "c"})
        self.assertEqual([line[:11] for line in lines], ["outcome 1: ", "    said: c", "    ckrt hu", "outcome 2: ", "    said: a", "    ckrt hu"])
        self.assertEqual([line[:11] for line in known_lines(lines)], ["outcome 1: ", "    ckrt hu", "outcome 2: ", "    said: a", "    ckrt hu"])
        self.assertEqual([line[:11] for line in known_lines(lines, True)], ["outcome 1: ", "    ckrt hu", "outcome 2: ", "    ckrt hu"])


class Tables(unittest.TestCase):
    def test_order_and_counts(self):
        outcomes = dict(zip(range(8, 13), ["exit 0, output 1", "deadlock", "exit 0, output 1", "exit 1, output 1", "deadlock"]))
        self.assertEqual(lines_of_table("a.bin", outcomes, Options(16, 2, 99)), [
            "outcome 1: 2 of 5 runs, first by seed 9: deadlock",
            "    ckrt hunt a.bin --seeds 9-9 --pages 16 --harts 2 --steps 99 --keep seed-9.disk",
            "outcome 2: 1 of 5 runs, first by seed 11: exit 1, output 1",
            "    ckrt hunt a.bin --seeds 11-11 --pages 16 --harts 2 --steps 99 --keep seed-11.disk",
            "outcome 3: 2 of 5 runs, first by seed 8: exit 0, output 1",
            "    ckrt hunt a.bin --seeds 8-8 --pages 16 --harts 2 --steps 99 --keep seed-8.disk"])
        self.assertEqual(lines_of_table("a.bin", {8: "deadlock"}, Options(16, 2, 99, "b.txt"))[1],
                         "    ckrt hunt a.bin --seeds 8-8 --pages 16 --harts 2 --steps 99 --input b.txt --keep seed-8.disk")

    def test_kinds(self):
        """What harms comes first, and of one kind what came first."""
        kinds = ["fault of thread 2 at 00001000, misaligned", "deadlock, thread 1 waits for the end of thread 2", "exit 3, output 1", "exit 1, output 1",
                 "no end within 9 steps or events", "waits for input", "exit 0, output 2", "exit 0, output 1"]
        outcomes = dict(zip([7, 6, 4, 5, 3, 2, 0, 1], kinds))
        told = lines_of_table("a.bin", dict(sorted(outcomes.items())), Options(16, 2, 99))[::2]
        self.assertEqual([line.partition(": ")[2].partition(": ")[2] for line in told], kinds)

    def test_others(self):
        """64 of a kind have lines of their own, and no other kind takes them."""
        for count in (64, 65):
            outcomes = {seed: f"exit 0, output {seed % count}" for seed in range(1, 131)} | {131: "deadlock", 132: "exit 1, output 0"}
            lines = lines_of_table("a.bin", outcomes, Options(16, 2, 99), has_rows=True)
            others = [] if count == 64 else ["other outcomes: 2 of 132 runs"]
            self.assertEqual((lines[132:], lines[130][:12]), (others, "outcome 66: "), count)
            self.assertEqual(lines[0], "outcome 1: 1 of 132 runs, first by seed 131: deadlock")

    def test_many_outputs(self):
        """The three commonest, of as many runs those that came first, each by its number; where there are three or `--rows` all."""
        options = Options(16, 2, 99)
        counts = {"b": 2, "c": 1, "a": 3, "d": 2, "e": 2}
        texts = [name for name, count in counts.items() for _ in range(count)]
        outcomes = {seed: f"exit 0, output {name}" for seed, name in enumerate(texts, 1)} | {11: "deadlock"}
        lines = lines_of_table("a.bin", outcomes, options)
        self.assertEqual([line.partition(" runs")[0] for line in lines[::2]],
                         ["outcome 1: 1 of 11", "outcome 2: 2 of 11", "outcome 4: 3 of 11", "outcome 5: 2 of 11", "outputs of exit 0: 5 in 10 of 11"])
        self.assertEqual(lines[8:], ["outputs of exit 0: 5 in 10 of 11 runs, the three commonest above"])
        rows = lines_of_table("a.bin", outcomes, options, has_rows=True)
        self.assertEqual([line.split(":")[0] for line in rows[::2]], [f"outcome {number}" for number in range(1, 7)])
        self.assertEqual(len(rows), 12)
        three = {seed: outcome for seed, outcome in outcomes.items() if outcome[-1] not in "de"}
        self.assertEqual(lines_of_table("a.bin", three, options), lines_of_table("a.bin", three, options, has_rows=True))
        others = {seed: text.replace("exit 0", "exit 1") for seed, text in outcomes.items()}
        self.assertEqual(len(lines_of_table("a.bin", others, options)), 12)

    def test_more_outputs_than_rows(self):
        """Those that aren't told apart are others, behind the line of outputs."""
        outcomes = {seed: f"exit 0, output {seed}" for seed in range(1, 67)}
        lines = lines_of_table("a.bin", outcomes, Options(16, 2, 99))
        self.assertEqual(lines[6:], ["outputs of exit 0: 64 in 64 of 66 runs, the three commonest above", "other outcomes: 2 of 66 runs"])

    def test_chosen(self):
        """The fewest switches, of as many the lowest seed; only the last one looked at may have had too few tries."""
        alone = {3: 9, 5: 4, 6: 4, 8: 2, 9: 7}
        for seed, switches, among, is_right in [(3, 9, 1, True), (3, 8, 1, False), (5, 4, 1, False), (5, 4, 3, True), (6, 4, 3, False), (5, 4, 2, True),
                                                (5, 6, 2, True), (5, 9, 2, False), (5, 6, 3, False), (8, 2, 5, True), (8, 3, 5, False), (8, 3, 4, True), (8, 1, 4, False),
                                                (5, 4, 4, True), (5, 4, 5, False), (8, 2, 6, False), (9, 7, 5, False), (8, 2, 0, False), (3, 9, 2, True)]:
            self.assertEqual(is_chosen(seed, switches, among, alone), is_right, (seed, switches, among))
        many = {seed: 20 - seed for seed in range(1, 13)}
        self.assertTrue(is_chosen(10, 10, 10, many))
        self.assertFalse(is_chosen(11, 9, 11, many))
        self.assertEqual(line_of_kept(57, "bugs/outcome-1.disk", 6, 41, 10),
                         "kept: the run of seed 57 on bugs/outcome-1.disk, switches: 6, drawn with 41, fewest of 10 seeds")

    def test_races_asked_for(self):
        """Behind the input, and before what is kept."""
        self.assertEqual(lines_of_table("a.bin", {8: "deadlock"}, Options(16, 2, 99, "b.txt", is_raced=True))[1],
                         "    ckrt hunt a.bin --seeds 8-8 --pages 16 --harts 2 --steps 99 --input b.txt --races --keep seed-8.disk")
        self.assertEqual(Options(16, 2, 99, is_raced=True).words(), "--pages 16 --harts 2 --steps 99 --races")
        self.assertEqual(Options(16, 2, 99, ignores_output=True, is_checked=True).words(), "--pages 16 --harts 2 --steps 99 --check --ignore-output")

    def test_outputs_ignored(self):
        """Behind the word for races; outcomes have their status alone, and `exit 0` is the last one."""
        self.assertEqual(Options(16, 2, 99, "b.txt", True, True).words(), "--pages 16 --harts 2 --steps 99 --input b.txt --races --ignore-output")
        self.assertEqual(Options(16, 2, 99, ignores_output=True).words(), "--pages 16 --harts 2 --steps 99 --ignore-output")
        outcomes = {1: "exit 0", 2: "exit 134", 3: "exit 0", 4: "waits for input", 5: "exit 10"}
        told = lines_of_table("a.bin", outcomes, Options(16, 2, 99, ignores_output=True))
        self.assertEqual([line.partition(": ")[2] for line in told[::2]],
                         ["1 of 5 runs, first by seed 2: exit 134", "1 of 5 runs, first by seed 5: exit 10", "1 of 5 runs, first by seed 4: waits for input",
                          "2 of 5 runs, first by seed 1: exit 0"])
        self.assertEqual(told[1], "    ckrt hunt a.bin --seeds 2-2 --pages 16 --harts 2 --steps 99 --ignore-output --keep seed-2.disk")
        for statuses, status in ((["exit 0", "exit 0"], 0), (["exit 0", "exit 1"], 8), (["exit 10"], 9)):
            self.assertEqual(status_of(statuses), status)

    def test_status(self):
        """8 where there are several outcomes, or one of the runs raced; 9 where there is one, and not `exit 0`."""
        quiet, raced = Races(False), Races(False)
        raced.pairs[frozenset([4, 8])] = Pair(None, None)
        a, b, c = "exit 0, output 1", "exit 0, output 2", "deadlock"
        for outcomes, found, status in [([a], [], 0), ([a, a], [quiet, quiet], 0), ([a, b], [quiet, quiet], 8), ([a, b], [], 8),
                                        ([a, a], [quiet, raced], 8), ([a], [raced], 8), ([a, b, a], [raced, raced, quiet], 8), ([c], [], 9),
                                        ([c, c], [quiet, quiet], 9), ([c, a], [], 8), ([c], [raced], 8), (["exit 1, output 1"], [], 9),
                                        (["fault of thread 1 at 00001000, x"], [], 9), (["no end within 9 steps or events"], [], 9), (["waits for input"], [], 9)]:
            self.assertEqual(status_of(outcomes, [one.pairs for one in found]), status, (outcomes, found))

    def test_refused(self):
        """What is there, also a link that leads to nothing; a folder that is missing, or none. Of a folder the first disk is looked at."""
        taken, missing = "something has this path already; move that away, or give another path", "its folder is missing; make it, or give another path"
        with tempfile.TemporaryDirectory() as name:
            folder = Path(name)
            (folder / "made").mkdir()
            (folder / "full").mkdir()
            for file in ("file", "full/outcome-1.disk", "made/outcome-2.disk"):
                (folder / file).write_bytes(b"")
            (folder / "link").symlink_to("nowhere")
            for path, disk, why in [("file", "file", taken), ("link", "link", taken), ("made", "made", taken), ("full/", "full/outcome-1.disk", taken),
                                    ("none/", "none/outcome-1.disk", missing), ("none/a", "none/a", missing), ("file/", "file/outcome-1.disk", missing),
                                    ("file/a", "file/a", missing)]:
                self.assertEqual(refusal_of_keep(path, folder), f"the disk {disk}: {why}", path)
            for path in ("free", "made/", "made/outcome-1.disk"):
                self.assertIsNone(refusal_of_keep(path, folder), path)

    def test_kept(self):
        self.assertEqual(line_of_kept(3, "seed-3.disk", 17, 19), "kept: the run of seed 3 on seed-3.disk, switches: 17, drawn with 19")
        self.assertEqual(line_of_kept(3, "bugs/outcome-1.disk", 0, None), "kept: the run of seed 3 on bugs/outcome-1.disk, switches: 0, as it was drawn")
