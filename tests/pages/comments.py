"""What the sources say in their comments, for the pages that are made of these. tests/pages/definitions and tests/pages/proved stand on it."""
import re
from dataclasses import dataclass

from markdown import END_OF_SENTENCE, TOP

CODE_LINK = re.compile(r"\[(`[^`]+`)\](?:\([^)]*\))?")


def groups():
    """Each group, by its name and what crates.txt says of it, with its crates."""
    found = []
    for line in (TOP / "crates.txt").read_text("utf-8").splitlines():
        heading, crate = re.fullmatch(r"# (\w+): (.+)", line), re.match(r"(ckrt\w*)", line)
        if heading:
            found.append((heading[1], heading[2], []))
        elif crate and found:
            found[-1][2].append(crate[1])
    return found


def root_of(crate):
    """The file at the top of a crate's sources."""
    folder = TOP / "crates" / crate / "src"
    return next(it for it in (folder / "lib.rt", folder / "main.rt") if it.exists())


def joined(lines, mark):
    """The comment that lines begin with, its lines joined, up to its first empty one; nothing where there is none."""
    found = []
    for line in lines:
        if not re.match(rf"{mark}( |$)", line) or line == mark:
            break
        found.append(line[len(mark):].strip())
    return " ".join(found)


def first_comment(file, mark):
    """The comment that a file begins with, as `joined` has it."""
    return joined(file.read_text("utf-8").splitlines(), mark)


@dataclass(frozen=True)
class Room:
    """How much of a comment a page has room for: characters and words in all, and words of one sentence."""

    characters: int
    words: int
    sentence: int

    def takes(self, text):
        return len(text) <= self.characters and len(text.split()) <= self.words


def clauses(sentence, room):
    """A sentence; of one that is too long, as many of its clauses as there is room for."""
    most = " ".join(sentence.split()[:min(room.sentence, room.words)])[:room.characters]
    if most == sentence:
        return sentence
    return most[:max(most.rfind(f"{mark} ") for mark in ",:;")] + " .."


def shortened(text, room):
    """The sentences of a text, as many as there is room for, the first one at least."""
    found = ""
    for sentence in END_OF_SENTENCE.split(text):
        if found and not room.takes(f"{found} {sentence}"):
            break
        found = f"{found} {clauses(sentence, room)}".strip()
    return found
