"""Profiles: what calls and returns, where stacks begin, what is counted, by small guests; the table's text; and texts read back."""
import unittest
from collections import Counter

from cases.callers import returned
from cases.profiled import costs_in, difference_of_costs, sections_of, unlike_tables
from model.abi import Call
from model.assembler import STOP, Label, Program, add_immediate, image_of, immediate_form, jump_form, jump_register, load_number
from model.layout import Geometry, format_disk
from model.lines import serve_disk
from model.profiles import Frame, Profile, calls, returns
from model.stretches import Recording
from model.switches import switched
from model.threads import State, Wait, WaitKind
from unit.test_races import call, load, recording_of

NOP, RETURN = add_immediate(0, 0, 0), jump_register(0, 1, 0)
WORDS = [  # whether each calls, and whether it returns
    (jump_form(1, 8), True, False), (jump_form(5, 8), True, False), (jump_form(0, 8), False, False), (jump_form(2, 8), False, False),
    (jump_register(1, 6, 0), True, False), (jump_register(5, 6, 0), True, False), (jump_register(0, 6, 0), False, False),
    (RETURN, False, True), (jump_register(7, 5, 0), False, True), (jump_register(0, 5, 4), False, True),
    (jump_register(5, 1, 0), True, True), (jump_register(1, 5, 0), True, True), (jump_register(1, 1, 0), True, False),
    (jump_register(5, 5, 0), True, False), (add_immediate(1, 1, 0), False, False), (immediate_form(0x63, 0, 1, 1, 0), False, False),
]
TABLE = """steps 9

  share             steps  function
  77.77%                 7  pc 00001000, calls 1
  22.22%                 2  pc 0000100c, calls 1

  share             steps  thread
 100.00%                 9  thread 1

  share             steps  wait""".splitlines()
COSTS = """# callgrind format
events: Steps

fl=???
fn=00001000
0x00001000 4
fn=thread 1
cfn=00001000
calls=1 0x00001000
0x00000000 6
fn=00001000
cfn=0000100c
calls=2 0x0000100c
0x00001000 2
fn=00001000
0x00001000 3
fn=00001000
cfn=0000100c
calls=3 0x0000100c
0x00001000 5"""


def profile_of_words(*words, steps):
    disk = format_disk(Geometry(16, 1, 4096), image_of([*words, STOP]))
    serve_disk(disk, f"place 0 1\nrun 0 {steps}\ncommit\n".encode())
    return Recording(disk).show(Profile())


class WithKeys(unittest.TestCase):
    def setUp(self):
        switch = switched(keys=True, long_runs=True)
        switch.__enter__()
        self.addCleanup(switch.__exit__, None, None, None)

    def stacks(self, profile, *lines):
        self.assertEqual(sorted(profile.folded()), sorted(lines))


class Stacks(WithKeys):
    def test_words(self):
        self.assertEqual([(calls(word), returns(word)) for word, *_ in WORDS], [tuple(told) for _, *told in WORDS])

    def test_call_and_return(self):
        """The step that calls counts for the caller, the one that returns for what was called."""
        profile = profile_of_words(jump_form(1, 12), STOP, NOP, NOP, RETURN, steps=5)
        self.stacks(profile, "thread 1;00001000 3", "thread 1;00001000;0000100c 2")
        self.assertEqual((profile.steps, profile.calls), (5, {0x1000: 1, 0x100C: 1}))
        self.assertEqual(profile.costs(), [("00001000", 3), ("thread 1", "00001000", 1, 5), ("0000100c", 2), ("00001000", "0000100c", 1, 2)])

    def test_jumps_at_an_end(self):
        """What is jumped to is no function of its own."""
        profile = profile_of_words(jump_form(1, 8), STOP, jump_form(0, 8), NOP, RETURN, steps=4)
        self.stacks(profile, "thread 1;00001000 2", "thread 1;00001000;00001008 2")

    def test_bottom(self):
        """What a stack began with stays."""
        self.stacks(profile_of_words(*returned(1), *returned(5), steps=8), "thread 1;00001000 8")

    def test_return_and_call(self):
        """In the place of a function there is another one, and below it the same."""
        profile = profile_of_words(jump_form(1, 8), STOP, 0x17 | 5 << 7, add_immediate(5, 5, 12), jump_register(1, 5, 0), NOP, steps=5)
        self.stacks(profile, "thread 1;00001000 1", "thread 1;00001000;00001008 3", "thread 1;00001000;00001014 1")

    def test_recursion(self):
        profile = profile_of_words(jump_form(1, 4), jump_form(1, 0), steps=4)
        self.stacks(profile, "thread 1;00001000 1", "thread 1;00001000;00001004 1", "thread 1;00001000;00001004;00001004 1",
                    "thread 1;00001000;00001004;00001004;00001004 1")
        self.assertEqual(profile.costs()[1::2], [("thread 1", "00001000", 1, 4), ("00001000", "00001004", 1, 3), ("00001004", "00001004", 1, 2),
                                                 ("00001004", "00001004", 1, 1)])

    def test_fault(self):
        """A call to no word calls nothing."""
        profile = profile_of_words(jump_form(1, 6), steps=4)
        self.assertEqual((profile.steps, profile.calls), (1, {0x1000: 1}))

    def test_last_step(self):
        """A call by the last step is none: no step of what it called follows."""
        profile = profile_of_words(jump_form(1, 4), steps=1)
        self.assertEqual(profile.calls, {0x1000: 1})
        profile = profile_of_words(jump_form(1, 4), steps=2)
        self.assertEqual(profile.calls, {0x1000: 1, 0x1004: 1})

    def test_threads(self):
        """Each begins at its routine; where that returns to the runtime counts for it. A later thread of the number begins anew."""
        program = Program()
        create = [*call(Call.CREATE, Label("routine"), 0, 0, 1)]
        program.add([*create, *create, STOP])
        program.label("routine")
        program.add([NOP, RETURN])
        disk = format_disk(Geometry(16, 1, 4096), image_of(program.words()))
        begin = (len(program.words()) - 3) // 2
        lines = ["place 0 1", f"run 0 {begin}", "place 0 2", "run 0 9", "place 0 1", f"run 0 {begin}", "place 0 2", "run 0 1", "commit"]
        serve_disk(disk, "\n".join([*lines, ""]).encode())
        profile = Recording(disk).show(Profile())
        routine = program.labels["routine"]
        self.stacks(profile, f"thread 1;00001000 {2 * begin}", f"thread 2;{routine:08x} 4")
        self.assertEqual(profile.calls, {0x1000: 1, routine: 2})

    def test_sent(self):
        """A handler just behind the call that ended the thread is the way on; one that is popped begins a stack."""
        program = Program()
        program.add([*call(Call.CLEANUP_PUSH, Label("handler"), 0), jump_form(1, 4), *call(Call.THREAD_EXIT, 0)])
        program.label("handler")
        program.add([NOP, STOP])
        words, handler = program.words(), program.labels["handler"]
        profile = profile_of_words(*words, steps=len(words) + 1)
        before = len(words) - 5
        self.stacks(profile, f"thread 1;00001000 {before}", f"thread 1;00001000;{handler - 12:08x} 6")
        program = Program()
        program.add([*call(Call.CLEANUP_PUSH, Label("handler"), 0), *call(Call.CLEANUP_POP, 1), STOP])
        program.label("handler")
        program.add([NOP, RETURN])
        words, handler = program.words(), program.labels["handler"]
        profile = profile_of_words(*words, steps=len(words))
        self.stacks(profile, f"thread 1;00001000 {len(words) - 3}", f"thread 1;{handler:08x} 3")

    def test_cancelled(self):
        """Who waits is sent by another one's step; that makes no step of it."""
        wait = [*call(Call.CLEANUP_PUSH, Label("handler"), 0), *call(Call.GETC)]
        recording = recording_of([(2, wait), (1, call(Call.CANCEL, 2)), (2, 1)], threads=1, routines=[("handler", [NOP])])
        profile = recording.show(Profile())
        steps = Counter(dict(line.rsplit(" ", 1) for line in profile.folded() if line.startswith("thread 2")))
        self.assertEqual([int(number) for number in steps.values()], [len(wait) + 1, 1])

    def test_gates(self):
        """A function that returns to the runtime has the step at its gate. A stack that begins at a gate has a function under its address."""
        self.stacks(profile_of_words(RETURN, steps=1), "thread 1;00001000 1")
        for gate in (0xFFFFFFF0, 0xFFFFFFF4):
            recording = recording_of([(1, [*call(Call.CREATE, gate, 0, 0, 0)]), (2, 1)], threads=0)
            self.stacks(recording.show(Profile()), "thread 1;00001000 6", f"thread 2;{gate:08x} 1")
        disk = format_disk(Geometry(16, 1, 4096), image_of([RETURN]))
        serve_disk(disk, b"place 0 1\nrun 0 1\nrun 0 1\ncommit\n")
        self.stacks(Recording(disk).show(Profile()), "thread 1;00001000 2")
        self.stacks(Recording(disk).show(Profile(), 2), "thread 1;fffffff0 1")

    def test_order_of_stacks(self):
        """Those that are under way by their numbers, and then as each is met; one without steps has no line, but its entries."""
        recording = recording_of([(2, load()), (1, load()), (2, load())], threads=2)
        profile = recording.show(Profile(), 4, 6)
        self.assertEqual([line.split(";")[0] for line in profile.folded()], ["thread 1"])
        self.assertEqual([entry[0] for entry in profile.costs()[1::2]], ["thread 1", "thread 2", "thread 3"])
        self.assertEqual([entry[2:] for entry in profile.costs()[1::2]], [(1, 3), (1, 0), (1, 0)])
        self.assertEqual([entry[0] for entry in recording.show(Profile(), 8, 8).costs()[1::2]], ["thread 1", "thread 2", "thread 3"])
        order = [line.split(";")[0] for line in recording.show(Profile()).folded()]
        self.assertEqual(order, ["thread 1", "thread 2"])

    def test_under_way(self):
        """Stacks begin where the stretch does; a return leaves them."""
        disk = format_disk(Geometry(16, 1, 4096), image_of([jump_form(1, 8), STOP, NOP, RETURN]))
        serve_disk(disk, b"place 0 1\nrun 0 2\nrun 0 3\ncommit\n")
        profile = Recording(disk).show(Profile(), 2)
        self.stacks(profile, "thread 1;0000100c 3")
        self.assertEqual((profile.steps, profile.calls), (3, {0x100C: 1}))

    def test_many_stacks(self):
        """1,024 have rows, and who is above them comes back to them."""
        words = [*load_number(28, 1100), jump_form(1, 4), add_immediate(28, 28, -1), 0xFE0E1CE3, *load_number(28, 1100),
                 *returned(1), add_immediate(28, 28, -1), 0xFE0E18E3]
        profile = profile_of_words(*words, steps=1 + 1100 * 3 + 1 + 1100 * 5 + 3)
        self.assertEqual((len(profile.frames), profile.others), (1024, 231 + 3 + 76 * 5))
        self.assertEqual(profile.folded()[-1], f"others {profile.others}")
        self.assertEqual((profile.costs()[-1], len(profile.costs())), (("others", profile.others), 2 * 1024 + 1))
        self.assertEqual(sum(entry[1] for entry in profile.costs() if len(entry) == 2), profile.steps)
        self.assertEqual(profile.table()[-6].split()[1:], [str(profile.others), "elsewhere"])
        self.assertEqual((profile.calls[0x1008], profile.frames[0].steps), (1023, 7))


class Waits(WithKeys):
    def test_steps_of_others(self):
        """From behind the call that waits up to the one that ends it; that one counts."""
        turns = [(2, call(Call.MUTEX_LOCK, 0x2000)), (3, call(Call.MUTEX_LOCK, 0x2000)), (1, load()), (2, call(Call.MUTEX_UNLOCK, 0x2000)),
                 (1, load())]
        self.assertEqual(recording_of(turns).show(Profile()).waits, {(3, "mutex 00002000"): 6})
        turns = [(2, call(Call.GETC)), (3, call(Call.SLEEP_UNTIL, 9, 0)), (1, load())]
        self.assertEqual(recording_of(turns).show(Profile()).waits, {(2, "input"): 7, (3, "sleep"): 3})

    def test_conditions(self):
        """Told by its own address alone; who waits behind it for the mutex waits for that."""
        wait = [*call(Call.MUTEX_LOCK, 0x2000), *call(Call.COND_WAIT, 0x3000, 0x2000)]
        turns = [(2, wait), (1, [*call(Call.MUTEX_LOCK, 0x2000), *call(Call.COND_SIGNAL, 0x3000), *load()])]
        waits = recording_of(turns, threads=1).show(Profile()).waits
        self.assertEqual(list(waits), [(2, "cond 00003000"), (2, "mutex 00002000")])
        self.assertEqual(waits[2, "mutex 00002000"], 3)

    def test_rows(self):
        """256 of them, those that were met first, with steps or without one."""
        profile, machine = Profile(), State()
        machine.waits = [Wait(2, WaitKind.JOIN, number) for number in range(258)]
        profile.meet_waits(machine)
        for wait in [*machine.waits[1:], machine.waits[1]]:
            profile.count_wait(wait)
        self.assertEqual((len(profile.waits), profile.waits[2, "join 0"], profile.waits[2, "join 1"], profile.other_waits), (256, 0, 2, 2))
        profile.steps = 1
        self.assertEqual(len([line for line in profile.table() if "waits" in line]), 20)

    def test_met(self):
        """Where they begin: also one that an event ends before anybody makes a step, and those that are there where the stretch begins."""
        turns = [(2, call(Call.SLEEP_UNTIL, 9, 0)), (3, [*call(Call.GETC), *call(Call.GETC)]), (1, load())]
        waits = recording_of(turns).show(Profile(), 7).waits
        self.assertEqual(list(waits.items()), [((2, "sleep"), 3), ((3, "input"), 3)])
        program = Program()
        program.add([*call(Call.SLEEP_UNTIL, 9, 0), STOP])
        disk = format_disk(Geometry(16, 1, 4096), image_of(program.words()))
        serve_disk(disk, b"place 0 1\nrun 0 9\ntick 9\ncommit\n")
        self.assertEqual(Recording(disk).show(Profile()).waits, {(1, "sleep"): 0})
        self.assertEqual(list(Recording(disk).show(Profile()).waits), [(1, "sleep")])


class Tables(WithKeys):
    def test_text(self):
        profile = profile_of_words(jump_form(1, 12), STOP, NOP, NOP, RETURN, steps=9)
        self.assertEqual([line.split() for line in profile.table()], [line.split() for line in TABLE])

    def test_sections(self):
        """The most steps first, of as many the lower number; 20 lines and the rest."""
        profile = Profile()
        profile.steps, profile.threads = 300, Counter({number: 10 for number in range(30, 0, -1)})
        profile.threads[7] = 12
        rows = [line.split() for line in profile.table()][5:]
        self.assertEqual([row[-1] for row in rows[:21]], ["7", *map(str, [*range(1, 7), *range(8, 21)]), "others"])
        self.assertEqual([rows[0][:2], rows[1][:2], rows[20][:2]], [["4.00%", "12"], ["3.33%", "10"], ["33.33%", "100"]])
        profile.waits = Counter({(number, "input"): 300 for number in range(22)})
        profile.other_waits = 30
        self.assertEqual(profile.table()[-1].split(), ["100.00%", "630", "others"])

    def test_elsewhere(self):
        profile = Profile()
        profile.steps = profile.others = 3
        self.assertEqual([line.split() for line in profile.table()][3], ["100.00%", "3", "elsewhere"])

    def test_elsewhere_is_last(self):
        """However many steps it has, behind 20 others and the rest."""
        profile = Profile()
        profile.steps, profile.others = 100, 50
        profile.frames = [Frame(0x1000 + 4 * number, 1, has_row=True, steps=2) for number in range(25)]
        rows = [line.split() for line in profile.table()][3:]
        self.assertEqual([row[1:] for row in rows[19:22]], [["2", "pc", "0000104c,", "calls", "0"], ["10", "others"], ["50", "elsewhere"]])
        profile.others = 0
        self.assertNotIn("elsewhere", "".join(profile.table()))

    def test_order(self):
        """The most steps first, and of as many what was met first."""
        profile = Profile()
        profile.frames = [Frame(function, 1, has_row=True, steps=steps) for function, steps in [(0x3000, 4), (0x1000, 4), (0x2000, 5), (0x3000, 0)]]
        profile.waits.update({(2, "mutex 00002000"): 3, (1, "join 2"): 3, (3, "sleep"): 13})
        profile.steps = 13
        names = [line.split("  ")[-1] for line in profile.table() if "%" in line]
        self.assertEqual(names, ["pc 00002000, calls 0", "pc 00003000, calls 0", "pc 00001000, calls 0", "thread 3 waits sleep",
                                 "thread 2 waits mutex 00002000", "thread 1 waits join 2"])

    def test_unlike(self):
        """Other steps, names, heads and threads aren't alike, nor is another order, or another row at which a section is cut off."""
        rows = "steps 9\n\n share steps function\n1% 4 pc {}\n1% 4 pc {}\n\n share steps thread\n1% {} thread {}\n1% 4 thread 2".format
        table = sections_of(rows(1, 2, 4, 1).splitlines())
        for shown, is_like in [(rows(1, 2, 4, 1), True), (rows(2, 1, 4, 1), False), (rows(1, 3, 4, 1), False), (rows(1, 2, 5, 1), False),
                               (rows(1, 2, 4, 3), False), (rows(1, 2, 4, 2)[:-1] + "1", False), (rows(1, 2, 4, 1).replace("9", "8"), False)]:
            self.assertEqual(unlike_tables(table, sections_of(shown.splitlines())) is None, is_like, shown)
        other = rows(1, "{}", 4, 1).format
        for shown, is_like in [(other("2\n1% 7 elsewhere"), True), (other("2").replace("\n1%", "\n1% 7 elsewhere\n1%", 1), False),
                               (other("2\n1% 8 elsewhere"), False), (other("3\n1% 7 elsewhere"), False), (other("2"), False)]:
            self.assertEqual(unlike_tables(sections_of(other("2\n1% 7 elsewhere").splitlines()), sections_of(shown.splitlines())) is None, is_like, shown)
        cut = "steps 9\n\n share steps wait\n1% 4 a\n1% 2 {}\n1% 5 others".format
        for shown, is_like in [(cut("b"), True), (cut("c"), False), (cut("b").replace(" a", " d"), False), (cut("b").replace("5", "6"), False)]:
            self.assertEqual(unlike_tables(sections_of(cut("b").splitlines()), sections_of(shown.splitlines())) is None, is_like, shown)

    def test_costs_in(self):
        entries = [("00001000", 4), ("thread 1", "00001000", 1, 6), ("00001000", "0000100c", 2, 2), ("00001000", 3), ("00001000", "0000100c", 3, 5)]
        self.assertEqual(costs_in(COSTS), entries)
        self.assertIsNone(costs_in("fn=1\nsteps 4"))

    def test_difference_of_costs(self):
        """Each entry at its place, and also those without steps."""
        entries = [("1", 4), ("thread 1", "1", 1, 4), ("2", 0), ("thread 2", "2", 1, 0)]
        self.assertIsNone(difference_of_costs(entries, list(entries)))
        for wrong in [entries[:2], [*entries[2:], *entries[:2]], [("1", 5), *entries[1:]], [*entries[:3], ("thread 2", "2", 2, 0)], None]:
            self.assertIsNotNone(difference_of_costs(entries, wrong), wrong)
