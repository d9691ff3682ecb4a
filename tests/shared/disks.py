"""Where things lie on a disk, as docs/FILE_FORMAT.md has it, and how one is made of an image. All sizes and places are bytes."""
import subprocess
from dataclasses import dataclass
from pathlib import Path

BLOCK = 4_096  # of the superblock, of a header, and of a page
TABLES = 98_304
OPEN, CLOSED = 0xA5, 0x00  # the byte of a gate
PAGES, JOURNAL = 64, 65_536  # of a disk that nothing else is said of
LEAST_PAGES, LEAST_JOURNAL = 16, 4_096
GENERATION = slice(8, 16)  # within an area's header


@dataclass(frozen=True)
class Layout:
    """Where the parts of a disk lie, by its pages and the bytes of a journal."""

    pages: int = PAGES
    journal: int = JOURNAL

    def area(self, number):
        """Where area 0 or 1 begins, whose header is its first block; area 2 would begin where the journals do."""
        return BLOCK + number * (BLOCK + TABLES + BLOCK * self.pages)

    def journal_at(self, number):
        """Where the journal of area 0 or 1 begins."""
        return self.area(2) + number * self.journal

    def size(self):
        """The bytes that the disk needs."""
        return self.journal_at(2)

    def words(self):
        """The options of a command that makes such a disk."""
        return shape_words(pages=self.pages, journal=self.journal)


def shape_words(**sizes):
    """The options `--pages P`, `--harts H` and `--journal J` of the sizes that are named."""
    return [word for name, size in sizes.items() for word in (f"--{name}", str(size))]


def make(ckrt, disk, image, **sizes):
    """Makes a disk of an image by `ckrt format`, in place of what is there, and gives its path.

    `sizes` are pages, harts, or the bytes of a journal. It raises CalledProcessError where the program refuses.
    """
    disk = Path(disk)
    disk.unlink(missing_ok=True)
    subprocess.run([ckrt, "format", disk, image, *shape_words(**sizes)], check=True, capture_output=True)
    return disk


def refusing_its_last(ckrt, disk, image):
    """Makes a disk of an image, with three events of which the last is of a hart that it hasn't: so it is damaged. Gives its path."""
    disk = make(ckrt, disk, image)
    subprocess.run([ckrt, "run", disk], input=b"place 0 1\nrun 0 100\nrun 0 50\ncommit\n", check=True, capture_output=True)
    content, last = bytearray(disk.read_bytes()), Layout().journal_at(0) + len(b"gLLPPPRRRR")
    if content[last:last + 4] != b"\x02\x00\x32\x00":
        raise ValueError(f"{disk}: the last event of its journal is another one")
    content[last + 1] = 7
    disk.write_bytes(content)
    return disk


def with_an_older_part(ckrt, disk, image, is_changed=False):
    """Makes a disk of an image, with an event behind its last checkpoint and two before. With `is_changed` these don't lead there: a byte
    of the memory that they begin with, which they don't write, is another one. Gives its path."""
    disk = make(ckrt, disk, image)
    lines = b"place 0 1\nrun 0 100\ncommit\ncheckpoint\nrun 0 50\ncommit\n"
    subprocess.run([ckrt, "run", disk], input=lines, check=True, capture_output=True)
    if is_changed:
        content = bytearray(disk.read_bytes())
        content[Layout().area(1) - 20 * BLOCK - 1] ^= 1
        disk.write_bytes(content)
    return disk


def generation_of(disk, pages=PAGES):
    """The greater generation of the open areas of a disk: 1 behind its making, and one more behind each checkpoint."""
    found, layout = [], Layout(pages)
    with open(disk, "rb") as file:
        for number in range(2):
            file.seek(layout.area(number))
            header = file.read(GENERATION.stop)
            if header[0] == OPEN:
                found.append(int.from_bytes(header[GENERATION], "little"))
    return max(found, default=0)
