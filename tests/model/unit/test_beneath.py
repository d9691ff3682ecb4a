"""What stands beneath races, by small guests: locks, blocks and callers; and rows of names by hand."""
import unittest
from unittest.mock import patch

from cases.glances import kind_of_beneath
from cases.kinds import case_of
from cases.nested import ZONE
from model.abi import Call
from model.beneath import lines_told
from model.callers import Up, callers_of, text_of_names
from model.machine import Machine
from model.races import Readings
from unit.test_races import BYTE, SHARED, WithKeys, anew, base, call, load, locked, recording_of, store



def told(*turns, first=None, rows=(), **what):
    """The lines, by both readings of blocks."""
    recording = recording_of(turns, **what)
    return lines_told(recording, recording.show(Readings(), first), (first, None), rows)


class Beneath(WithKeys):
    def beneath(self, *turns, **what):
        """The lines beneath the first race, without positions."""
        lines, wide = told(*turns, **what)
        self.assertEqual(lines, wide)
        end = next((at for at, line in enumerate(lines[1:], 1) if line[0] != " "), len(lines))
        self.assertTrue(all(line.startswith("    ") for line in lines[1:end]))
        return [line.strip().partition(" ")[2] if "+" in line.split()[0] else line.strip() for line in lines[1:end]]

    def test_no_lock(self):
        self.assertEqual(self.beneath((2, store()), (3, load())), ["thread 2 holds no lock", "thread 3 holds no lock"])

    def test_positions(self):
        lines, _ = told((2, store()), (3, load()))
        first, second = (text.split()[0] for text in lines[0].split(", ")[:2])
        self.assertEqual([line.split()[0] for line in lines[1:]], [first, second])

    def test_mutexes(self):
        """By rising address, without the kit's own; as they are at the access, and not before or behind it."""
        inner = locked(locked(locked(store(), 0x1FFC), 5), 0x3000)
        self.assertEqual(self.beneath((2, [*locked([]), *inner]), (3, [*load(), *locked([])])),
                         ["thread 2 holds mutex 00001ffc", "thread 2 holds mutex 00003000", "thread 3 holds no lock"])
        self.assertEqual(self.beneath((2, locked(store(), 5)), (3, load()))[0], "thread 2 holds no lock")
        self.assertEqual(self.beneath((2, locked(store(), 4096)), (3, load()))[0], "thread 2 holds mutex 00001000")
        self.assertEqual(self.beneath((2, locked(store(), 4095)), (3, load()))[0], "thread 2 holds no lock")

    def test_others_locks(self):
        """Only those of the thread that makes the access."""
        held = self.beneath((2, call(Call.MUTEX_LOCK, 0x2004)), (3, store()), (2, load()))
        self.assertEqual(held, ["thread 3 holds no lock", "thread 2 holds mutex 00002004"])

    def test_read_write_locks(self):
        """Behind the mutexes, each by its own address; readers beside each other."""
        both = [*call(Call.RWLOCK_RDLOCK, 0x1FFC), *call(Call.RWLOCK_WRLOCK, 0x3000), *call(Call.MUTEX_LOCK, 0x2004)]
        held = self.beneath((2, [*both, *store()]), (3, [*call(Call.RWLOCK_RDLOCK, 0x1FFC), *load()]))
        self.assertEqual(held, ["thread 2 holds mutex 00002004", "thread 2 holds rwlock 00001ffc to read", "thread 2 holds rwlock 00003000 to write",
                                "thread 3 holds rwlock 00001ffc to read"])
        self.assertEqual(self.beneath((2, [*call(Call.RWLOCK_WRLOCK, 4), *store()]), (3, load()))[0], "thread 2 holds no lock")
        self.assertEqual(self.beneath((2, [*call(Call.RWLOCK_RDLOCK, 0x3000), *store()]), (3, load()))[1], "thread 3 holds no lock")

    def block(self, *turns, **what):
        return [line for line in self.beneath(*turns, **what) if line.startswith("in a block")]

    def test_blocks(self):
        """Without the first word; the last one before the second access that has the word."""
        self.assertEqual(self.block((2, [*anew(-4, 12), *store()]), (3, load()))[0].partition(", taken")[0], "in a block of 8 bytes from 00002800 on")
        self.assertEqual(self.block((2, [*anew(-8, 12), *store()]), (3, load()))[0].partition(", taken")[0], "in a block of 8 bytes from 000027fc on")
        self.assertEqual(self.block((2, [*anew(-8, 8), *store()]), (3, load())), [])
        self.assertEqual(self.block((2, [*anew(-4, 4), *store()]), (3, load())), [])
        self.assertEqual(self.block((2, [*anew(-4, 8), *anew(8, 8), *store()]), (3, load()))[0][:38], "in a block of 4 bytes from 00002800 on")
        later = self.block((2, [*anew(-8, 16), *anew(-4, 8), *store()]), (3, load()))
        self.assertEqual(later[0].partition(", taken")[0], "in a block of 4 bytes from 00002800 on")

    def test_taken(self):
        """Where and by whom, whoever accesses it; and not behind the second access."""
        lines, _ = told((4, anew(-4, 8)), (2, store()), (3, load()), threads=3)
        self.assertRegex(lines[3], r"^    in a block of 4 bytes from 00002800 on, taken at \d+\+\d+ by thread 4$")
        begin = lines[3].split("taken at ")[1].split("+")[0]
        self.assertEqual((int(begin) + 2, len(lines)), (int(lines[1].split("+")[0]), 4))
        self.assertEqual(self.block((2, store()), (3, load()), (2, anew(-4, 8))), [])

    def test_before_the_stretch(self):
        turns = (4, anew(-4, 8)), (2, store()), (3, load())
        self.assertEqual(len(told(*turns, threads=3)[0]), 4)
        self.assertEqual(len(told(*turns, threads=3, first=4)[0]), 3)

    def test_first_word(self):
        """Whether that is in the block is left open."""
        narrow, wide = told((2, [*anew(0, 12), *store()]), (3, load()))
        self.assertEqual(wide[:-1], narrow)
        self.assertIn("in a block of 8 bytes from 00002804 on", wide[-1])

    def test_parts(self):
        """The word of both is looked for, whichever bytes they access."""
        self.assertEqual(len(self.block((2, [*anew(-4, 8), *store(3, BYTE)]), (3, load(3, BYTE)))), 1)

    def test_more_races(self):
        """Each pair has its own lines, and the last line none."""
        lines, _ = told((2, [*store(), *locked(store(8))]), (3, [*load(), *load(8)]))
        self.assertEqual([line[0] == " " for line in lines], [False, True, True] * 2)
        self.assertEqual([" ".join(line.split()[-2:]) for line in lines if line[0] == " "], ["no lock", "no lock", "mutex 00002000", "no lock"])

    def test_other_places(self):
        """The line that counts them has nothing beneath it."""
        with patch("model.races.PAIRS", 1):
            lines, _ = told((2, [*store(), *store(8)]), (3, [*load(), *load(8)]))
        self.assertEqual((len(lines), lines[3]), (4, "and once at other places"))

    def test_none(self):
        lines = told((2, store()))
        self.assertEqual(lines, (lines[0], lines[0]))
        self.assertEqual(len(lines[0]), 1)

    def test_callers(self):
        """Of both accesses, and of who took the block: each behind what it is of."""
        frames = [*base(0x100), *[0x00018113], *[0x000080B7]]  # addi x2, x3, 0; lui x1, 8
        rows = [Up(0x1000, 0x1000, 2, 0, None, None)]
        lines, _ = told((2, [*frames, *anew(-4, 8), *store()]), (3, load()), rows=rows)
        self.assertEqual([line.partition("thread ")[2] if "called" in line or "holds" in line else "block" for line in lines[1:]],
                         ["2 holds no lock", "2 called from 00007ffc", "3 holds no lock", "block", "2 called from 00007ffc"])

    def test_kinds(self):
        kinds = {"    1+2 thread 3 holds no lock": "holds no", "    1+2 thread 3 holds rwlock 00001ffc to read": "holds rwlock to read",
                 "    1+2 thread 3 called from 00001ffc": "called", "    in a block of 4 bytes from 00002800 on, taken at 1+2 by thread 3": "in a block"}
        self.assertEqual({line: kind_of_beneath(line) for line in kinds}, kinds)


class Callers(unittest.TestCase):
    """A machine with frames that were written by hand."""

    def setUp(self):
        self.machine = Machine(16, 1, bytes(61440))
        self.thread = self.machine.threads[1]
        self.thread.pc = 0x1010

    def callers(self, *rows):
        return [f"{caller:x}" for caller in callers_of(self.machine, 1, [Up(*row) for row in rows])]

    def put(self, **registers):
        for name, value in registers.items():
            self.thread.registers[int(name[1:])] = value

    def words(self, **words):
        for at, value in words.items():
            self.machine.memory.store(int(at[2:], 16), 4, value)

    def test_register(self):
        self.put(x1=0x1104, x2=0x3000)
        self.assertEqual(self.callers((0x1000, 0x20, 2, 0, None, None)), ["1100"])
        for begin, length in ((0x1000, 0x10), (0x1014, 8), (0x1110, 4)):
            self.assertEqual(self.callers((begin, length, 2, 0, None, None)), [])
        self.assertEqual(self.callers((0x1010, 4, 2, 0, None, None)), ["1100"])

    def test_memory(self):
        """The return address stands so many bytes below the frame's address, by either register."""
        self.put(x1=0x1104, x2=0x3000, x8=0x4000)
        self.words(at301c=0x1204, at3ffc=0x1304)
        self.assertEqual(self.callers((0x1000, 0x20, 2, 32, 4, None)), ["1200"])
        self.assertEqual(self.callers((0x1000, 0x20, 8, 0, 4, None)), ["1300"])

    def test_frames(self):
        """The caller's register 2 is the frame's address, and its register 8 what it was, or a word of the memory; it is looked up where its call stands."""
        self.put(x1=0x1104, x2=0x3000, x8=0x4000)
        self.words(at301c=0x1204, at3ffc=0x1304, at4ffc=0x1404, at3008=0x5000)
        inner, middle = (0x1000, 0x20, 2, 16, None, None), (0x1100, 4, 2, 16, 4, None)
        self.assertEqual(self.callers(inner, middle), ["1100", "1200"])
        self.assertEqual(self.callers(inner, (0x1104, 4, 2, 16, 4, None)), ["1100"])
        self.assertEqual(self.callers(inner, (0x1100, 4, 8, 0, 4, None)), ["1100", "1300"])
        self.assertEqual(self.callers((0x1000, 0x20, 2, 16, None, 8), (0x1100, 4, 8, 0, 4, None)), ["1100", "1400"])

    def test_ends(self):
        """At an address outside of memory, as that of a thread's first function; at 16 callers."""
        row = (0x1000, 0x200, 2, 16, 4, None)
        self.put(x2=0x3000)
        self.assertEqual(self.callers(row), [])
        for value, found in ((0x1000, []), (0x1004, ["1000"]), (0x10000, ["fffc"]), (0x10004, []), (0xFFFFFFFC, [])):
            self.words(at300c=value)
            self.assertEqual(self.callers(row), found)
        for at in range(0x300C, 0x3200, 16):
            self.words(**{f"at{at:x}": 0x1104})
        self.assertEqual(len(self.callers(row)), 16)
        self.put(x2=0xFFFF0000)
        self.assertEqual(self.callers(row), [])

    def test_unknown_register(self):
        """What a caller had in register 1 isn't known."""
        self.put(x1=0x1104, x2=0x3000)
        self.assertEqual(self.callers((0x1000, 0x200, 2, 16, None, None)), ["1100"])

    def test_text(self):
        self.assertEqual(text_of_names(bytes(32), 24, [Up(0x10E4, 0x38, 2, 32, 4, None), Up(0x2000, 4, 8, 0, None, 8)]),
                         f"ckrt-names 2 {64 * '0'} 00000018\nup 000010e4 00000038 2 32 4 x8\nup 00002000 00000004 8 0 x1 8\n")


class Drawn(WithKeys):
    def test_rows(self):
        """They rise without a common byte; where calls are, no return address is in its register."""
        for seed in range(1, 9):
            case = case_of("nested", seed)
            for row, behind in zip(case.rows, case.rows[1:]):
                self.assertLessEqual(row.begin + row.length, behind.begin)
            self.assertTrue(all(row.back is not None or row.begin // ZONE % 2 for row in case.rows))
            self.assertTrue(all(row.begin // ZONE == (row.begin + row.length - 1) // ZONE for row in case.rows))
            self.assertIn(None, [row.back for row in case.rows])


