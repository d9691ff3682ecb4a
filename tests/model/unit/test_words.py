"""Faults of `format` in their order, by hand; and that random words come up of each kind."""
import unittest
from collections import Counter
from hashlib import sha256
from random import Random

from cases.words import NAMED, NAMELESS, NAMES, NO_NAMES, OWN_NAMES, WordsCase, words_case
from compare import difference_of_names, expected_of_words
from model.layout import Geometry, format_disk
from model.switches import switched

FITS, TOO_LONG = bytes(61440), bytes(61441)


def format_words(disk="missing", image="image", pages=16):
    return WordsCase([], "format", (disk, image), {"pages": pages, "harts": 1, "journal": 4096})


class Order(unittest.TestCase):
    def test_faults(self):
        rows = [("BadConfig", format_words("folder", "missing", 15), b""), ("File", format_words("folder", "missing"), b""),
                ("File", format_words("disk", "folder"), b""), ("ImageTooLong", format_words("folder", "long"), TOO_LONG),
                ("File", format_words("folder"), FITS), ("AlreadyFormatted", format_words("disk"), FITS), (None, format_words(), FITS)]
        for fault, case, image in rows:
            self.assertEqual(case.fault_of_format(image), fault)

    def test_size(self):
        self.assertEqual(format_words().geometry().size, 348160)


class Names(unittest.TestCase):
    """A file of names that is refused, and one that isn't."""
    DISK = bytes(format_disk(Geometry(16, 1, 4096), b""))
    ALL = {"inspect", "calls", "races", "check", "timeline", "profile", "hunt", "drive"}

    def expected(self, command, names):
        return expected_of_words(WordsCase([], command, tuple(NAMED[command][:1]), {"at": None, "code": None, "from": None, "to": None}, names), self.DISK, b"")

    def test_commands(self):
        self.assertEqual((set(NAMED), set(NAMELESS)), (self.ALL, {"format", "run", "debug"}))

    def test_refused(self):
        for command in NAMED:
            for names in ("missing", "folder", "image"):
                self.assertEqual(self.expected(command, names), (1, b"", "Names"))
        self.assertEqual(set(NO_NAMES), {"missing", "folder", "image"})

    def test_right(self):
        """Of a disk those of any image."""
        lines = (b"no races in events 0 to 0 of this schedule; another one may have some\n"
                 b"no cycle of locks in events 0 to 0 of this schedule; another one may have one\n")
        self.assertEqual(self.expected("races", NAMES[0]), (0, lines, None))
        for command in ("inspect", "calls"):
            self.assertEqual(self.expected(command, NAMES[0]), self.expected(command, None))
            self.assertEqual(self.expected(command, None)[::2], (0, None))
        self.assertEqual(self.expected("hunt", NAMES[0]), (1, b"", "Names"))
        self.assertFalse(WordsCase([], "hunt", ("image",), {}).are_names_refused())

    def test_of_another_program(self):
        """Of a disk that notes its program only its own will do."""
        with switched(keys=True, long_runs=True, programs=True):
            disk = bytes(format_disk(Geometry(16, 1, 4096), b""))
            for command in ("inspect", "calls", "races"):
                case = WordsCase([], command, ("disk",), {"at": None, "code": None, "from": None, "to": None}, NAMES[0])
                self.assertEqual(expected_of_words(case, disk, b""), (1, b"", "Names"))
                case.names = OWN_NAMES[0]
                self.assertEqual(expected_of_words(case, disk, b"")[::2], (0, None))
            self.assertTrue(WordsCase([], "hunt", ("image",), {}, OWN_NAMES[0]).are_names_refused())
            cases = [words_case(Random(seed), seed) for seed in range(1000)]
            self.assertEqual({case.command for case in cases if case.names == OWN_NAMES[0]}, {"inspect", "calls", "races", "hunt"})
        self.assertEqual(OWN_NAMES[1].split()[2:], [sha256(b"").hexdigest(), "00000000"])

    def test_told(self):
        usage, missing = ["      --names <FILE>  Take names"], ["the names missing: there is no such file", "ckrt: Names"]
        for command in [*NAMED, *NAMELESS]:
            asked = WordsCase([command, "--help"])
            self.assertEqual(difference_of_names(asked, usage) is None, command in self.ALL)
            self.assertEqual(difference_of_names(asked, []) is None, command not in self.ALL)
        case = WordsCase(["calls", "disk", "--names", "missing"], "calls", ("disk",), {}, "missing")
        self.assertIsNone(difference_of_names(case, missing))
        for told in (missing[1:], missing[:1], ["the names disk: there is no such file", "ckrt: Names"], [*missing, "ckrt: Names"]):
            self.assertIsNotNone(difference_of_names(case, told))
        self.assertIsNone(difference_of_names(WordsCase(["calls", "disk"], "calls", ("disk",), {}), []))


class Chosen(unittest.TestCase):
    def test_each_kind(self):
        cases = [words_case(Random(seed), seed) for seed in range(400)]
        commands = Counter(case.command for case in cases)
        self.assertTrue(all(commands[name] > 20 for name in (None, "format", "run", "inspect", "calls")), commands)

    def test_names(self):
        """Each command with names that are refused, some with others, and each usage."""
        cases = [words_case(Random(seed), seed) for seed in range(2000)]
        self.assertEqual({(case.command, case.names) for case in cases if case.names and case.are_names_refused()},
                         {(command, names) for command in NAMED for names in ("missing", "folder", "image")} | {("hunt", "names")})
        self.assertEqual({case.command for case in cases if case.names and not case.are_names_refused()}, {"inspect", "calls", "races"})
        self.assertEqual({case.words[0] for case in cases if case.asks_for_usage()} - {"version"}, {*NAMED, *NAMELESS})

    def test_values(self):
        """A command's words have the values that the case says, whatever their order."""
        for seed in range(400):
            case = words_case(Random(seed), seed)
            for name, value in (case.options or {}).items():
                texts = [word.partition("=")[2] or case.words[place + 1] for place, word in enumerate(case.words)
                         if name != "code" and str(word).partition("=")[0] == f"--{name}"]
                self.assertIn([int(text) for text in texts], [[value], []])
