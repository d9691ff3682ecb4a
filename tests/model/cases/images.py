"""Cases of drives of a disk that is there by `--image`: its own, other ones, such as can't be read, or none; and with sizes, right ones and wrong ones. Of a
disk that notes its program another image is refused, and nothing is changed. Of one that doesn't none is looked at."""
from dataclasses import dataclass, field
from hashlib import sha256

from cases.driven import UNFED, Driven, drive_of_program, tells
from cases.drives import DrivesCase, unfed_case
from model.layout import NOTE_END, SUPERBLOCK_END, differs, note_of

SIZES = "pages", "harts", "journal"
OTHERS = {
    "its own": lambda image: image, "a zero more": lambda image: image + b"\0", "a byte less": lambda image: image[:-1],
    "another": lambda image: bytes([image[0] ^ 1]) + image[1:], "empty": lambda image: b"",
}
UNREAD = ["missing", "folder"]


@dataclass(frozen=True)
class Given:
    """What a drive is given: a name of an image, or none, and some sizes."""
    image: str | None
    sizes: tuple = ()

    def words(self):
        image = [] if self.image is None else ["--image", f"image of {self.image}"]
        return image + [word for name, number in self.sizes for word in (f"--{name}", str(number))]


@dataclass
class ImagesCase(DrivesCase):
    """With what each drive is given. The note may be changed, or the superblock be of version 1 with the bytes of a note."""
    given: list = field(default_factory=list)
    change: tuple | None = None

    def disk(self):
        disk = super().disk()
        if self.change:
            at, byte = self.change
            disk[at] = byte
        return disk


def images_case(chance, case):
    unfed = unfed_case(chance, case)
    given = [drawn_given(chance, case.geometry) for _ in range(chance.choice([3, 5, 8]))]
    drives = [chance.choice(unfed.drives) for _ in given]
    change = chance.choice([None] * 5 + [(16, 1), (chance.randrange(SUPERBLOCK_END, NOTE_END), chance.randrange(256))])
    return ImagesCase(unfed.geometry, unfed.image, unfed.version, drives, given=given, change=None if unfed.version else change)


def drawn_given(chance, geometry):
    """Wrong sizes beside its own image alone, or beside none."""
    image = chance.choice([None, "its own", "its own", *OTHERS, *UNREAD])
    own = dict(zip(SIZES, (geometry.pages, geometry.harts, geometry.journal)))
    sizes = {name: own[name] for name in SIZES if chance.random() < 0.4}
    if image in ("its own", None) and chance.random() < 0.25:
        name, number = chance.choice([("pages", own["pages"] + 1), ("harts", own["harts"] % 8 + 1), ("journal", own["journal"] + 4096)])
        sizes[name] = number
    return Given(image, tuple(sizes.items()))


def faults_of(case, disk, given):
    """By their names, with what the line of each has. None where the drive begins; which of several is told the page leaves open."""
    own = dict(zip(SIZES, (case.geometry.pages, case.geometry.harts, case.geometry.journal)))
    found = {"BadConfig": []} if any(own[name] != number for name, number in given.sizes) else {}
    if given.image is None or note_of(disk) is None:
        return found
    if given.image in UNREAD:
        return {**found, "File": []}
    image = OTHERS[given.image](case.image)
    return {**found, "ImageDiffers": [note_of(disk)[0].hex(), sha256(image).hexdigest()]} if differs(disk, image) else found


def difference_of_images(ckrt, case, folder, tally, count_life):
    driven = Driven(ckrt, case, folder, "imaged", tally, count_life)
    (folder / "image of folder").mkdir(exist_ok=True)
    for name, change in OTHERS.items():
        (folder / f"image of {name}").write_bytes(change(case.image))
    difference = None
    for number, (options, given) in enumerate(zip(case.drives, case.given), 1):
        faults = faults_of(case, driven.disk, given)
        tally["image of a drive", " or ".join(faults) or given.image or "none"] += 1
        driven.making = given.words()
        difference = difference_of_refused(driven, options, given, faults) if faults else driven.drive(options, UNFED)
        if difference:
            difference = f"drive {number} ({given}): {difference}"
            break
    (folder / "image of folder").rmdir()
    return difference


def difference_of_refused(driven, options, given, faults):
    shown = drive_of_program(driven.ckrt, driven.path, driven.out, options, given.words(), None, driven.folder)
    if shown.status != 1 or shown.fault not in faults:
        return f"model {list(faults)}, program {shown}"
    untold = [text for text in faults[shown.fault] if not tells(shown.text, text)]
    return f"{untold} should be in {shown.text!r}" if untold else driven.difference_of_files()
