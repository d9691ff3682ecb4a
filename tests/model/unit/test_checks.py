"""Errors of memory, by small guests: what is told of a heap, which uses and frees are wrong, what is counted as one, and the text."""
import unittest
from unittest.mock import patch

from cases.glances import recording_of as recorded
from cases.heaped import READINGS, kind_of_line
from cases.kinds import case_of
from model.abi import Call
from model.assembler import immediate_form, jump_form, load_number, register_form, store_form
from model.callers import Up
from model.checks import Checks
from unit.test_races import WithKeys, call, locked, recording_of

HEAP = 0x2800
BYTE, HALF, WORD = 0, 1, 2
EXIT = call(Call.EXIT, 0)
NOTHING, BACK_BY_TWO = immediate_form(0x13, 0, 0, 0, 0), jump_form(0, -8)


def compared(first, second, funct3):
    return [*load_number(5, first), *load_number(6, second), register_form(0, funct3, 0, 5, 6)]


def taken(at=HEAP, length=8):
    """A block of so many bytes behind the word of the heap's own."""
    over = -length % 4
    return compared(at + over, 4 + length + over, 2)


def freed(at=HEAP + 4):
    return compared(at, 0, 3)


def nobodys(at=HEAP, length=64):
    return compared(at, length, 3)


def load(at, width=WORD):
    return [*load_number(3, at), immediate_form(0x03, width, 4, 3, 0)]


def store(at, width=WORD):
    return [*load_number(3, at), store_form(width, 4, 0, 3)]


def back(value):
    """Register 1 has the address behind a call."""
    return load_number(1, value)


def told(*turns, first=None, last=None, rows=(), reading=(), **what):
    return recording_of(turns, **what).show(Checks(rows, *reading), first, last).lines()


def short(line):
    """Without positions, threads and pcs."""
    words = line.split()
    return line if "+" not in words[0] else " ".join([words[3], words[4].lstrip("0"), *words[7:]])


class Memory(WithKeys):
    def errors(self, *words, thread=2, **what):
        """Of one thread behind a heap that is nobody's; all readings tell the same."""
        lines = [told((thread, [*nobodys(), *words]), reading=reading, **what) for reading in READINGS]
        self.assertTrue(all(line == lines[0] for line in lines))
        return [short(line) for line in lines[0] if line[0] != " " and not line.startswith("no errors")]

    def right(self, *words):
        self.assertEqual(self.errors(*words), [])


class Uses(Memory):
    def test_no_block(self):
        """Of the heap's memory alone, from its first byte to its last."""
        for at, width in ((0, WORD), (63, BYTE), (62, HALF), (60, WORD)):
            for use, what in ((load, "loads"), (store, "stores")):
                self.assertEqual(self.errors(*use(HEAP + at, width)), [f"{what} {HEAP + at:x} in no block, once"])
        self.right(*load(HEAP - 4), *store(HEAP + 64), *load(HEAP - 1, BYTE))

    def test_block(self):
        self.right(*taken(), *store(HEAP + 4), *store(HEAP + 8), *load(HEAP + 11, BYTE), *load(HEAP + 4, HALF))
        self.assertEqual(self.errors(*taken(), *load(HEAP + 12)), ["loads 280c in no block, once"])

    def test_own_word(self):
        """That before a block."""
        for at, width in ((0, WORD), (3, BYTE), (2, HALF)):
            self.assertEqual(self.errors(*taken(), *load(HEAP + at, width)), [f"loads {HEAP + at:x} beside a block, once"])

    def test_last_word(self):
        """By bytes; of a word that is loaded whole the first byte is enough."""
        for length, wrong in ((5, (1, 2, 3)), (6, (2, 3)), (7, (3,)), (8, ())):
            found = [at for at in range(4) if self.errors(*taken(length=length), *store(HEAP + 8 + at, BYTE))]
            self.assertEqual(found, list(wrong))
        self.right(*taken(length=5), *load(HEAP + 8))
        self.assertEqual(self.errors(*taken(length=5), *store(HEAP + 8)), ["stores 2808 beside a block, once"])
        self.assertEqual(self.errors(*taken(length=5), *load(HEAP + 8, HALF)), ["loads 2808 beside a block, once"])
        self.right(*taken(length=6), *load(HEAP + 8, HALF))
        self.assertEqual(self.errors(*taken(length=7), *load(HEAP + 10, HALF)), ["loads 280a beside a block, once"])
        self.right(*taken(length=1), *store(HEAP + 4, BYTE), *load(HEAP + 4))

    def test_given_back(self):
        """All words of the block, and the heap's own; until they are given again."""
        for at in (0, 4, 8, 11):
            self.assertEqual(self.errors(*taken(), *freed(), *load(HEAP + at, BYTE)), [f"loads {HEAP + at:x} in a block that was given back, once"])
        self.assertEqual(self.errors(*taken(length=5), *freed(), *load(HEAP + 11, BYTE)), ["loads 280b in a block that was given back, once"])
        self.assertEqual(self.errors(*taken(), *freed(), *load(HEAP + 12)), ["loads 280c in no block, once"])
        self.right(*taken(), *freed(), *taken(), *store(HEAP + 8))
        self.assertEqual(self.errors(*taken(), *freed(), *taken(length=4), *store(HEAP + 8)), ["stores 2808 in a block that was given back, once"])

    def test_around(self):
        """A larger block is given back around one that was given in it."""
        around = [*taken(length=32), *freed(), *taken(HEAP + 8, 8)]
        self.right(*around, *store(HEAP + 12), *store(HEAP + 16))
        self.assertEqual(self.errors(*around, *store(HEAP + 20)), ["stores 2814 in a block that was given back, once"])

    def test_given_in_it(self):
        """What was told last counts, of each word."""
        self.right(*taken(length=32), *taken(HEAP + 8, 8), *freed(), *store(HEAP + 12))

    def test_ended(self):
        """A block that is nobody's, until it is given back."""
        self.assertEqual(self.errors(*taken(), *nobodys(HEAP + 4, 8), *store(HEAP + 8)), ["stores 2808 in a stack that has ended, once"])
        self.assertEqual(self.errors(*taken(), *nobodys(HEAP + 4, 4), *store(HEAP + 4)), ["stores 2804 in a stack that has ended, once"])
        self.right(*taken(), *nobodys(HEAP + 4, 4), *store(HEAP + 8))
        self.assertEqual(self.errors(*taken(), *nobodys(HEAP + 4, 8), *freed(), *load(HEAP + 4)), ["loads 2804 in a block that was given back, once"])
        self.right(*taken(), *nobodys(HEAP + 4, 8), *taken(), *store(HEAP + 4))

    def test_nobodys_twice(self):
        """What was given back stays so, and what ended too."""
        self.assertEqual(self.errors(*taken(), *freed(), *nobodys(), *load(HEAP + 4)), ["loads 2804 in a block that was given back, once"])
        lines = told((2, [*nobodys(), *taken()]), (3, nobodys(HEAP + 4, 8)), (2, nobodys(HEAP + 4, 8)), (2, load(HEAP + 4)))
        self.assertIn("by thread 3", lines[-1])

    def test_untold(self):
        """Of what nothing is told."""
        self.right(*load(0x2000), *store(0x27FC))
        self.assertEqual(told((2, [*freed(HEAP + 40), *load(HEAP + 4)]))[1:], [])

    def test_faults(self):
        """An access that faults is none."""
        for access in (load(HEAP + 5), store(HEAP + 6), load(HEAP + 1, HALF)):
            self.right(*access)

    def test_under_the_lock(self):
        """Of its owner nothing is told, and what that one tells of the heap counts all the same."""
        self.right(*locked([*load(HEAP), *freed(HEAP + 4), *store(HEAP)], 2))
        for mutex in (1, 3, 4, 5, 0x2002):
            self.assertEqual(len(self.errors(*locked(load(HEAP), mutex))), 1)
        self.assertEqual(self.errors(*locked(taken(), 2), *load(HEAP + 4), *locked(freed(), 2), *load(HEAP + 4)),
                         ["loads 2804 in a block that was given back, once"])
        lines = told((2, [*nobodys(), *call(Call.MUTEX_LOCK, 2)]), (3, load(HEAP)))
        self.assertEqual(short(lines[0]), "loads 2800 in no block, once")


class Frees(Memory):
    def test_right(self):
        self.right(*taken(), *freed(), *taken(), *freed())
        self.right(*taken(), *nobodys(HEAP + 4, 8), *freed())

    def test_wrong(self):
        self.assertEqual(self.errors(*taken(), *freed(), *freed()), ["frees 2804 in a block that was given back, once"])
        self.assertEqual(self.errors(*taken(), *freed(), *freed(HEAP + 8)), ["frees 2808 in a block that was given back, once"])
        self.assertEqual(self.errors(*taken(), *freed(HEAP + 8)), ["frees 2808 inside a block, once"])
        self.assertEqual(self.errors(*taken(), *freed(HEAP + 5)), ["frees 2805 inside a block, once"])
        self.assertEqual(self.errors(*freed(HEAP + 20)), ["frees 2814 in no block, once"])
        self.assertEqual(self.errors(*freed(0x2000)), ["frees 2000 in no block, once"])

    def test_ended(self):
        """In a stack that has ended an address is told of that one; its begin is given back rightly."""
        ended = [*taken(), *nobodys(HEAP + 4, 8)]
        self.assertEqual(self.errors(*ended, *freed(HEAP + 8)), ["frees 2808 in a stack that has ended, once"])
        self.assertEqual(self.errors(*ended, *freed(HEAP + 11)), ["frees 280b in a stack that has ended, once"])
        self.right(*ended, *freed())
        self.assertEqual(self.errors(*ended, *freed(HEAP + 8), *freed(), *freed(HEAP + 8)),
                         ["frees 2808 in a stack that has ended, once", "frees 2808 in a block that was given back, once"])
        lines = told((2, [*nobodys(), *taken(), *back(0x1104)]), (3, nobodys(HEAP + 4, 8)), (2, freed(HEAP + 8)))
        self.assertTrue(lines[2].startswith("    ended at 5+"))
        for reading in READINGS:
            self.assertEqual(len(told((2, [*nobodys(), *taken(), *nobodys(HEAP + 4, 8), *freed(HEAP + 4)]), reading=reading)), 1)
        words = [*nobodys(), *taken(), *taken(HEAP + 16), *nobodys(HEAP + 4, 8), *back(0x1104), *freed(HEAP + 8), *freed(HEAP + 24)]
        self.assertEqual([short(line) for line in told((2, words)) if line[0] != " "],
                         ["frees 2808 in a stack that has ended, once", "frees 2818 inside a block, once"])

    def test_nothing_changes(self):
        """By a free that is wrong."""
        self.assertEqual(self.errors(*taken(), *freed(HEAP + 8), *store(HEAP + 4), *freed()), ["frees 2808 inside a block, once"])

    def test_open(self):
        """Behind a block's last word, and at the heap's own: the one reading goes by the address, and the other one by the word before it."""
        found = [[short(told((2, [*nobodys(), *taken(), *freed(at)]), reading=(reading,))[0]) for reading in (False, True)]
                 for at in (HEAP + 12, HEAP)]
        self.assertEqual(found, [["frees 280c in no block, once", "frees 280c inside a block, once"],
                                 ["frees 2800 inside a block, once", "frees 2800 in no block, once"]])

    def test_open_of_ended(self):
        """The same in its first word, right after its last one, and where a part of a block is nobody's."""
        found = [[short(told((2, [*nobodys(), *taken(), *nobodys(HEAP + 4, length), *freed(at)]), reading=(reading,))[0]) for reading in (False, True)]
                 for length, at in ((8, HEAP + 5), (8, HEAP + 12), (4, HEAP + 8))]
        self.assertEqual(found, [["frees 2805 in a stack that has ended, once", "frees 2805 inside a block, once"],
                                 ["frees 280c in no block, once", "frees 280c in a stack that has ended, once"],
                                 ["frees 2808 inside a block, once", "frees 2808 in a stack that has ended, once"]])

    def test_open_of_word_before(self):
        """A block of which the heap's own word is nobody's too, as where a whole heap is told to be so: by that word it is in a stack that has ended."""
        found = [told((2, [*nobodys(), *taken(), *nobodys(HEAP, 12), *freed()]), reading=(reading,))[0] for reading in (False, True)]
        self.assertEqual([found[0][:9], short(found[1])], ["no errors", "frees 2804 in a stack that has ended, once"])

    def test_apart(self):
        """Whether memory that isn't the heap's counts as the heap's own."""
        words = [*nobodys(), *back(0x1104), *freed(HEAP + 20), *freed(0x2000), *freed(HEAP + 24)]
        found = [[short(line) for line in told((2, words), reading=(False, reading))] for reading in (False, True)]
        self.assertEqual(found, [["frees 2814 in no block, 3 times"], ["frees 2814 in no block, 2 times", "frees 2000 in no block, once"]])

    def test_later(self):
        """Of a block that isn't known nothing is told."""
        turns = (2, [*nobodys(), *taken()]), (3, freed(HEAP + 8)), (3, freed(HEAP + 8))
        self.assertEqual(short(told(*turns)[0]), "frees 2808 inside a block, 2 times")
        self.assertRegex(told(*turns, first=4)[0], "^no errors of memory in events 4 to 7 of this schedule; blocks that were taken before these are not known$")
        self.assertEqual(told((2, [*nobodys(), *taken(), *freed()]), (3, [*taken(), *freed(), *freed()]), first=4)[0].split()[3], "frees")


class Lines(Memory):
    def test_text(self):
        """The creates are 14 steps; thread 2 begins at 0x103c, and thread 3 at 0x1078. The pc of a free is that of the call."""
        lines = told((2, [*nobodys(), *taken(length=5), *back(0x1104), *freed()]), (3, [*back(0x1208), *freed(), *store(HEAP + 8)]))
        self.assertEqual(lines, ["5+5 thread 3 frees 00002804 pc 00001204 in a block that was given back, once",
                                 "    in a block of 5 bytes from 00002804 on, taken at 3+7 by thread 2", "    given back at 3+13 by thread 2",
                                 "5+8 thread 3 stores 00002808 pc 00001098 in a block that was given back, once",
                                 "    in a block of 5 bytes from 00002804 on, taken at 3+7 by thread 2", "    given back at 3+13 by thread 2"])

    def test_begins(self):
        """Before the first address there is no call."""
        for value in range(5):
            self.assertIn("pc 00000000", told((2, [*nobodys(), *back(value), *freed(0x2000)]))[0])
        self.assertIn("pc 00000001", told((2, [*nobodys(), *back(5), *freed(0x2000)]))[0])

    def test_ended(self):
        lines = told((2, [*nobodys(), *taken()]), (3, nobodys(HEAP + 4, 8)), (2, load(HEAP + 4)))
        self.assertEqual([line.rpartition("by")[2] for line in lines[1:]], [" thread 2", " thread 3"])
        self.assertTrue(lines[2].startswith("    ended at 5+"))

    def test_as_it_was(self):
        """The block is told as it was when the error came first."""
        lines = told((2, [*nobodys(), *taken(length=5), *store(HEAP + 8), *freed()]))
        self.assertEqual(len(lines), 2)

    def counted(self, step, rounds=3):
        """The same load of a byte again and again, with one step between: what is told of it."""
        words = [*nobodys(), *taken(HEAP + 16, 5), *load_number(3, HEAP), *load_number(1, 0x1104), step, immediate_form(0x03, BYTE, 4, 3, 0), BACK_BY_TWO]
        return [short(line) for line in told((2, words), (2, 3 * rounds - 3)) if line[0] != " "]

    def test_one_place(self):
        """What is wrong, the pc and register 1 make one line, with the first address."""
        self.assertEqual(self.counted(NOTHING), ["loads 2800 in no block, 3 times"])
        self.assertEqual(self.counted(immediate_form(0x13, 0, 3, 3, 4)), ["loads 2804 in no block, 3 times"])
        self.assertEqual(self.counted(immediate_form(0x13, 0, 1, 1, 4)), ["loads 2800 in no block, once"] * 3)
        self.assertEqual(self.counted(immediate_form(0x13, 0, 3, 3, 16), 2), ["loads 2810 beside a block, once", "loads 2820 in no block, once"])
        lines = told((2, [*nobodys(), *load(HEAP), *load(HEAP), *store(HEAP)]))
        self.assertEqual([short(line) for line in lines], ["loads 2800 in no block, once"] * 2 + ["stores 2800 in no block, once"])

    def test_whoever(self):
        """The thread is none of it, and of frees the pc is the call alone."""
        words = [*back(0x1104), *freed(0x2000)]
        self.assertEqual([short(line) for line in told((2, [*nobodys(), *words]), (3, words))], ["frees 2000 in no block, 2 times"])

    def test_what_is_done(self):
        """A load at 0x105c, and a free that is called there, are two."""
        words = [*nobodys(), *back(0x1060), *load(HEAP), *freed(HEAP + 20)]
        self.assertEqual([line.split()[3:7:3] for line in told((2, words))], [["loads", "0000105c"], ["frees", "0000105c"]])

    def test_more_places(self):
        """In the order in which they came; a last line counts all others."""
        with patch("model.checks.PLACES", 2):
            lines = [told((2, [*nobodys(), *(word for at in range(0, 4 * count, 4) for word in load(HEAP + at))])) for count in (2, 3, 4)]
        self.assertEqual([short(line) for line in lines[0]], ["loads 2800 in no block, once", "loads 2804 in no block, once"])
        self.assertEqual([line[-1] for line in lines[1:]], ["and once at other places", "and 2 times at other places"])

    def test_most_places(self):
        lines = told((2, [*nobodys(HEAP, 512), *(word for at in range(0, 66 * 4, 4) for word in load(HEAP + at))]))
        self.assertEqual((len(lines), lines[-1]), (65, "and 2 times at other places"))

    def test_none(self):
        self.assertEqual(told((2, nobodys())), ["no errors of memory in events 0 to 4 of this schedule; another one may have some"])
        self.assertEqual(told((2, nobodys()), (2, nobodys()), last=4)[0].split(";")[0], "no errors of memory in events 0 to 4 of this schedule")

    def test_not_told(self):
        """Where no memory is nobody's and nothing is given back, also behind errors."""
        text = "events 0 to 4 don't tell which memory is no block's: no call of free, or an image of an older kit"
        self.assertEqual(told((2, load(HEAP))), [text])
        self.assertEqual(told((2, [*taken(), *load(HEAP)])), [text])
        self.assertEqual(len(told((2, [*taken(), *freed()]))), 1)
        self.assertIn("no errors", told((2, [*taken(), *freed()]))[0])

    def test_callers(self):
        """Of the access, of who took the block, and of who gave it back."""
        frames = [*load_number(2, 0x3000), *load_number(1, 0x8004)]
        rows = [Up(0x1000, 0x1000, 2, 0, None, None)]
        lines = told((2, [*nobodys(), *frames, *taken()]), (3, [*frames, *freed(), *load(HEAP + 4)]), rows=rows)
        self.assertEqual([line.split()[-1] for line in lines[1:]], ["00008000", "2", "00008000", "3", "00008000"])
        self.assertEqual([line.split()[1:4] for line in (lines[1], lines[3], lines[5])], [["thread", "3", "called"], ["thread", "2", "called"],
                                                                                        ["thread", "3", "called"]])

    def test_kinds(self):
        kinds = {"1+2 thread 3 loads 00002800 pc 00001000 in no block, 3 times": "loads in no block", "    given back at 1+2 by thread 3": "given back",
                 "    1+2 thread 3 called from 00001ffc": "called", "never given back: 1 blocks, bytes: 6": "never"}
        self.assertEqual({line: kind_of_line(line) for line in kinds}, kinds)


class Left(Memory):
    def left(self, *words, **what):
        return told((2, [*nobodys(), *words]), **what)[1:]

    def test_left(self):
        """By rising address, of a program that has ended."""
        lines = self.left(*taken(HEAP + 16, 6), *taken(length=5), *taken(HEAP + 32), *freed(HEAP + 36), *EXIT)
        self.assertEqual(lines[0], "never given back: 2 blocks, bytes: 11")
        self.assertEqual([line.partition(",")[0] for line in lines[1:]], ["    in a block of 5 bytes from 00002804 on", "    in a block of 6 bytes from 00002814 on"])
        self.assertEqual(self.left(*taken()), [])

    def test_none_left(self):
        self.assertEqual(self.left(*taken(), *freed(), *EXIT), [])
        self.assertEqual(self.left(*EXIT), [])

    def test_faulted(self):
        self.assertEqual(self.left(*taken(), 0x00100073)[0], "never given back: 1 blocks, bytes: 8")

    def test_ended_stack(self):
        lines = self.left(*taken(), *nobodys(HEAP + 4, 8), *EXIT)
        self.assertEqual((lines[0], len(lines)), ("never given back: 1 blocks, bytes: 8", 2))

    def test_sixteen(self):
        words = [word for at in range(0, 17 * 8, 8) for word in taken(HEAP + at, 4)]
        lines = told((2, [*nobodys(HEAP, 256), *words, *EXIT]))[1:]
        self.assertEqual((lines[0], len(lines)), ("never given back: 17 blocks, bytes: 68", 17))

    def test_stretches(self):
        """It has to have ended by the stretch's end; blocks from before aren't known."""
        turns = (2, [*nobodys(), *taken()]), (2, EXIT)
        self.assertEqual(len(told(*turns)), 2 + 1)
        self.assertEqual(len(told(*turns, last=4)), 1)
        self.assertEqual(len(told((2, [*nobodys(), *taken()]), (2, [*taken(HEAP + 16), *freed(0x2000), *EXIT]), first=4)), 3)

    def test_callers(self):
        frames, rows = [*load_number(2, 0x3000), *load_number(1, 0x8004)], [Up(0x1000, 0x1000, 2, 0, None, None)]
        self.assertTrue(self.left(*frames, *taken(), *EXIT, rows=rows)[-1].endswith("called from 00008000"))

    def test_behind_errors(self):
        lines = told((2, [*nobodys(), *taken(), *load(HEAP), *EXIT]))
        self.assertEqual([kind_of_line(line) for line in lines], ["loads beside a block", "in a block", "never", "in a block"])


class Varieties(WithKeys):
    def test_cases(self):
        """They come to each kind of line, and readings differ now and then."""
        kinds, differ = set(), 0
        for seed in range(4, 84, 4):
            case = case_of("checks", seed)
            recording, _ = recorded(case.contents)
            lines = [recording.show(Checks(case.rows, *reading)).lines() for reading in READINGS]
            kinds |= {kind_of_line(line) for line in lines[0]}
            differ += any(other != lines[0] for other in lines)
        wrong = [f"{use} {fault}" for use in ("loads", "stores") for fault in
                 ("in no block", "beside a block", "in a block that was given back", "in a stack that has ended")]
        frees = [f"frees {fault}" for fault in ("in no block", "inside a block", "in a block that was given back", "in a stack that has ended")]
        self.assertEqual({*wrong, *frees, "called", "in a block", "given back", "ended", "never"} - kinds, set())
        self.assertLess(0, differ)
