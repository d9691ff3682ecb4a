"""Reads the pages of this repository: their lines, cells, sentences, headings and links. tests/pages/form and tests/pages/links stand on it."""
import re
import subprocess
from dataclasses import dataclass
from functools import cached_property
from pathlib import Path

TOP = Path(__file__).resolve().parents[2]
LINK = re.compile(r"(!?)\[((?:[^\[\]]|\[[^\]]*\])*)\]\(([^)\s]*)\)")
# A sentence ends at its mark and what closes behind it, where the next word doesn't begin with a small letter.
END_OF_SENTENCE = re.compile(r"(?<=[.?!])[\"')*_`]*\s+(?=[^a-z\s])")


@dataclass(frozen=True)
class Piece:
    """Some text of a page: a cell, a sentence, a heading; and the line that it begins at."""

    line: int
    text: str

    @property
    def words(self):
        return len(LINK.sub(r"\2", self.text).split())


@dataclass(frozen=True)
class Link:
    line: int
    text: str
    target: str


class Page:
    """A page of Markdown, as GitHub reads it, as far as the pages here need it."""

    def __init__(self, file):
        self.file = Path(file)
        self.lines = self.file.read_text(encoding="utf-8").split("\n")

    @property
    def name(self):
        return str(self.file.relative_to(TOP))

    @cached_property
    def prose(self):
        """The lines outside of code, each with its number; an empty one stands where code was left out."""
        found, fenced, before = [], False, ""
        for number, line in enumerate(self.lines, 1):
            is_fence = line.lstrip().startswith("```")
            is_code = fenced or is_fence or (line.startswith("    ") and (not before or before.startswith("    ")))
            fenced ^= is_fence
            found.append((number, "" if is_code else line))
            before = line
        return found

    @cached_property
    def cells(self):
        """Each cell of each table, but for the rows that rule off a head."""
        rows = [(number, line) for number, line in self.prose if line.startswith("|") and not re.fullmatch(r"[|:\- ]+", line)]
        return [Piece(number, cell.strip()) for number, line in rows for cell in re.split(r"(?<!\\)\|", line)[1:-1]]

    @cached_property
    def blocks(self):
        """Each heading, paragraph and item of a list, as one piece: lines that go on are joined."""
        found, is_open = [], False
        for number, line in self.prose:
            text = line.strip()
            begins = re.match(r"(#{1,6}|[-*]|\d+\.|>)\s", text)
            if not text or text.startswith("|"):
                is_open = False
            elif is_open and not begins:
                found[-1] = Piece(found[-1].line, f"{found[-1].text} {text}")
            else:
                found.append(Piece(number, text[begins.end():] if begins else text))
                is_open = not text.startswith("#")
        return found

    @cached_property
    def items(self):
        """Each item of a list, with the lines by which it goes on."""
        return [block for block in self.blocks if re.match(r"\s*([-*]|\d+\.)\s", self.lines[block.line - 1])]

    @cached_property
    def sentences(self):
        """The sentences of all blocks and cells."""
        return [Piece(block.line, text) for block in self.blocks + self.cells for text in END_OF_SENTENCE.split(block.text)]

    @cached_property
    def anchors(self):
        """What a link may name behind `#`: one for each heading."""
        found = set()
        for _, line in self.prose:
            if heading := re.match(r"#{1,6}\s+(.*)", line):
                words = re.sub(r"[^\w\- ]", "", LINK.sub(r"\2", heading[1]).lower()).replace(" ", "-")
                same = sum(1 for it in found if re.fullmatch(re.escape(words) + r"(-\d+)?", it))
                found.add(f"{words}-{same}" if same else words)
        return found

    @cached_property
    def links(self):
        return [Link(number, found[2], found[3]) for number, line in self.prose for found in LINK.finditer(line)]


def pages():
    """Every page that is tracked, or is to be."""
    words = ["git", "ls-files", "-z", "--cached", "--others", "--exclude-standard", "--", "*.md"]
    listed = subprocess.run(words, cwd=TOP, check=True, stdout=subprocess.PIPE, text=True).stdout
    return [Page(TOP / name) for name in sorted(set(listed.split("\0"))) if name and (TOP / name).exists()]
