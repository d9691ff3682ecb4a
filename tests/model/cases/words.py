"""Words of the program: those of a command in any order, and those that are none."""
from dataclasses import dataclass

from model.layout import Geometry, refusal_of_format
from model.switches import SWITCHES

DEFAULTS = {"pages": 64, "harts": 1, "journal": 65536}
OPTIONS = {"format": DEFAULTS, "run": {}, "inspect": {"at": None, "code": None}, "calls": {"from": None, "to": None}}
BITS = {"pages": 32, "harts": 32, "journal": 32, "at": 64, "from": 64, "to": 64}
GOOD = {"pages": ["16", "017", "64"], "harts": ["1", "8"], "journal": ["4096", "8192"], "at": ["0", "1", "2"],
        "from": ["0", "1"], "to": ["0", "1"]}
FILES = {"format": ["disk", "image"], "run": ["disk"], "inspect": ["disk"], "calls": ["disk"]}
ODD_FILES = {"disk": ["missing", "folder"], "image": ["missing", "folder", "long"]}
NO_NUMBERS = ["", "x", "-1", "1.5", "0x10", "1_000", " 1", "1 ", "\uff11", b"\xff", "9" * 40]
NO_COMMANDS = [[""], ["Run", "disk"], ["runs", "disk"], ["help"], ["--help"], ["-h"], ["version"], ["-"], [b"\xff"],
               ["--version", "run"], ["format", "--help"], ["run", "--help"], ["inspect", "--help"],
               ["calls", "--help"]]
# What takes names, with the words in front of them; which words of no other command know the option.
NAMED = {"inspect": ["disk"], "calls": ["disk"], "races": ["disk"], "check": ["disk"], "timeline": ["disk"], "profile": ["disk"],
         "hunt": ["image", "--seeds", "1-1"], "drive": ["disk"]}
NAMELESS = {"format": ["disk", "image"], "run": ["disk"], "debug": ["disk"]}
NAMES = "names", "ckrt-names 1 " + 64 * "0" + " 00000004\n"  # a file without a row, of another image than the one that is there
OWN_NAMES = "own", "ckrt-names 1 e3b0c44298fc1c149afbf4c8996fb92427ae41e4649b934ca495991b7852b855 00000000\n"  # of the disk, made with an empty image
NO_NAMES = ["missing", "missing", "folder", "image"]


@dataclass
class WordsCase:
    """`files` are the words in the places of files, `options` the values; neither where the words are no command. `names` is the file
    that names are taken from, if any is said."""
    words: list
    command: str | None = None
    files: tuple = ()
    options: dict | None = None
    names: str | None = None

    def are_names_refused(self):
        """Of a disk its own will do, or any where it doesn't note its program; of an image its own."""
        is_foreign = self.names == NAMES[0] and SWITCHES.programs
        return self.names in NO_NAMES or is_foreign or (self.names is not None and self.command == "hunt")

    def asks_for_usage(self):
        return self.words[1:] == ["--help"]

    def geometry(self):
        return Geometry(*(self.options[name] for name in DEFAULTS))

    def fault_of_format(self, image):
        """The faults of `format` in their order. The disk that is there holds a program."""
        disk, image_file = self.files
        refusal = refusal_of_format(self.geometry().size, self.geometry(), image)
        if refusal == "BadConfig":
            return refusal
        if image_file in ("missing", "folder"):
            return "File"
        return refusal or {"folder": "File", "disk": "AlreadyFormatted"}.get(disk)


def option_words(chance, name, text):
    if text is None:
        return [[f"--{name}"]]
    return [[f"--{name}", text]] if isinstance(text, bytes) or chance.random() < 0.7 else [[f"--{name}={text}"]]


def shuffled(chance, command, files, options):
    """The files keep their order, options stand anywhere between."""
    places = [[file] for file in files]
    for option in options:
        places.insert(chance.randrange(len(places) + 1), option)
    return [command, *[word for place in places for word in place]]


def chosen_options(chance, command):
    """Some options with their texts; of `--code` none."""
    names = [name for name in OPTIONS[command] if chance.random() < 0.4]
    odd = [str(2 ** bits - 1) for bits in (16, 32)] + ["0", "00"]
    return {name: chance.choice(GOOD[name] * 3 + odd) if name in BITS else None for name in names}


def spoiled(chance, case, texts):
    """The words, changed so that they are no command."""
    names = [name for name in OPTIONS[case.command] if name in BITS]
    kinds = ["file less", "file more", "unknown option", *["no number", "no value"] * bool(names)]
    match chance.choice(kinds):
        case "file less":
            return shuffled(chance, case.command, case.files[1:], [])
        case "file more":
            return shuffled(chance, case.command, [*case.files, "more"], [])
        case "unknown option":
            return shuffled(chance, case.command, case.files, [[chance.choice(["--none", "-p", "--page", "--CODE"])]])
        case "no value":
            return [case.command, *case.files, f"--{chance.choice(names)}"]
    name = chance.choice(names)
    text = chance.choice([*NO_NUMBERS, str(2 ** BITS[name])])
    return shuffled(chance, case.command, case.files, option_words(chance, name, text))


def named_words(chance):
    """Mostly with a file that is none of names; or words that are no command."""
    kind = chance.random()
    if kind < 0.1:
        return WordsCase([chance.choice([*NAMED, *NAMELESS]), "--help"])
    if kind < 0.2:
        command = chance.choice(list(NAMELESS))
        return WordsCase(shuffled(chance, command, NAMELESS[command], [["--names", NAMES[0]]]))
    command = chance.choice(list(NAMED))
    if kind < 0.3:
        return WordsCase([command, *NAMED[command], "--names"])
    others = [NAMES[0], OWN_NAMES[0] if SWITCHES.programs else NAMES[0]] if command in ("inspect", "calls", "races", "hunt") else []
    names = chance.choice([*NO_NAMES, *others])
    words = [command, *NAMED[command], *chance.choice([["--names", names], [f"--names={names}"]])]
    return WordsCase(words, command, tuple(NAMED[command][:1]), dict(OPTIONS.get(command, {})), names)


def words_case(chance, seed):
    if chance.random() < 0.2:
        return named_words(chance)
    if chance.random() < 0.15:
        return WordsCase(chance.choice(NO_COMMANDS))
    command = chance.choice(["format", "format", "run", "inspect", "inspect", "calls"])
    files = tuple(file if chance.random() < 0.6 else chance.choice(ODD_FILES[file]) for file in FILES[command])
    texts = chosen_options(chance, command)
    values = {name: int(text) if text is not None else True for name, text in texts.items()}
    parts = [part for name, text in texts.items() for part in option_words(chance, name, text)]
    case = WordsCase(shuffled(chance, command, files, parts), command, files, {**OPTIONS[command], **values})
    return WordsCase(spoiled(chance, case, texts)) if chance.random() < 0.4 else case
