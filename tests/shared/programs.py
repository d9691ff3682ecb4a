"""Finds the programs that tests and benches run, reads their words, and runs commands."""
import argparse
import os
import subprocess
from pathlib import Path

TOP = Path(__file__).resolve().parent.parent.parent
EXAMPLES = TOP / "guest/examples"  # guests in C, each with its image beside it
os.environ.setdefault("CKRT_KEEP_NAMES", "no")  # so that what a test builds is printed of without names; tests/look/named tries these


def found(name="ckrt"):
    """The path of a program: what the variable CKRT (of ckrt_bench_probe CKRT_BENCH_PROBE) names, else what `./build --program` finds or builds.

    It raises CalledProcessError where the program can't be built; `./build` has told why by then.
    """
    named = os.environ.get(name.upper())
    return Path(named or run(TOP / "build", "--program", name)).resolve()


def run(*words):
    """What a command prints, without the space around it. It raises CalledProcessError where the command's status isn't 0."""
    done = subprocess.run([str(word) for word in words], check=True, stdout=subprocess.PIPE, text=True)
    return done.stdout.strip()


def say(*words, folder=None):
    """Runs a command, in a folder if one is named: its status, what it prints, and the last line that it reports."""
    done = subprocess.run([str(word) for word in words], cwd=folder, capture_output=True, text=True, check=False)
    return done.returncode, done.stdout, (done.stderr.splitlines() or [""])[-1]


def parser_of(text):
    """A parser of a test's words, whose help is what the test says of itself."""
    return argparse.ArgumentParser(description=text, formatter_class=argparse.RawDescriptionHelpFormatter)


def add_program(parser, name="ckrt"):
    """Adds the option that names a program, as --ckrt FILE; `read_words` fills it in where it isn't given."""
    option = f"--{name.rpartition('_')[2]}"
    parser.add_argument(option, metavar="FILE", type=absolute, help=f"{name}, in place of the one that `./build --program` finds")


def add_seed(parser, default=1):
    """Adds --seed S, the seed of all chance of a test."""
    parser.add_argument("--seed", type=int, default=default, metavar="S", help=f"the seed of all chance ({default})")


def read_words(parser):
    """The words of the command line, with the path of ckrt where --ckrt wasn't given."""
    words = parser.parse_args()
    words.ckrt = words.ckrt or found()
    return words


def add_cuts(parser, what):
    """Adds the words [CKRT] CUTS; `read_cuts` makes the path of ckrt and a number of them."""
    parser.add_argument("given", nargs="+", metavar="[CKRT] CUTS", help=f"the program, and {what}")


def read_cuts(parser):
    """The words of the command line, with the number of cuts, and the path of ckrt where it wasn't given."""
    words = parser.parse_args()
    words.cuts = int(words.given.pop())
    words.ckrt = absolute(words.given[0]) if words.given else found()
    return words


def absolute(path):
    """A path that holds in any folder."""
    return Path(path).resolve()
