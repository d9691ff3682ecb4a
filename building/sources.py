"""What there is to build of, sums of it, and what is noted beside a program that was built."""
import contextlib
import fcntl
import functools
import hashlib
import importlib.machinery
import importlib.util
import os
import shutil
import sys

TOP = os.path.dirname(os.path.dirname(os.path.realpath(__file__)))


def say(text):
    print(f"build: {text}", file=sys.stderr, flush=True)


@functools.lru_cache(maxsize=None)
def kit():
    """The folder of the toolchain."""
    found = shutil.which("rt") or sys.exit("build: the toolchain isn't here: there is no command `rt` on the path")
    return os.path.dirname(os.path.dirname(os.path.realpath(found)))


def module_of_the_kit(name):
    """A program of the toolchain, as a module of Python."""
    sys.dont_write_bytecode = True
    loader = importlib.machinery.SourceFileLoader(name, f"{kit()}/bin/{name}")
    made = importlib.util.module_from_spec(importlib.util.spec_from_loader(name, loader))
    sys.modules[name.removesuffix(".py")] = made
    loader.exec_module(made)
    return made


def crates_listed(top=TOP):
    """The crates of crates.txt, each with all that it names there."""
    listed = {}
    with open(f"{top}/crates.txt", encoding="utf-8") as lines:
        for line in lines:
            name, colon, deps = line.partition("#")[0].partition(":")
            if colon:
                listed[name.split()[0]] = deps.split()
    return listed


def all_below(name, listed):
    """The crates of this repository that a crate stands on, itself among them."""
    found = {name}
    for dep in listed[name]:
        if dep in listed:
            found |= all_below(dep, listed)
    return found


def files_of(name, parts, top=TOP):
    """The files of these parts of a crate, in order."""
    for part in parts:
        for at, folders, files in os.walk(f"{top}/crates/{name}/{part}"):
            folders.sort()
            yield from (f"{at}/{file}" for file in sorted(files))


def is_program(name):
    return os.path.isfile(f"{TOP}/crates/{name}/src/main.rt")


class Sources:
    """What a program is made of: the toolchain, and of the crates below it the code, and for a proof all else."""

    def __init__(self, name, is_proof, top=TOP):
        listed = crates_listed(top)
        if name not in listed:
            sys.exit(f"build: crates.txt has no crate {name}")
        self.name, self.top = name, top
        self.below = sorted(all_below(name, listed))
        self.lines = "".join(f"{it}: {' '.join(listed[it])}\n" for it in self.below)
        parts = ("src", "specs", "proofs") if is_proof else ("src",)
        self.files = [file for it in self.below for file in files_of(it, parts, top)]
        # (these say how a program is made without a proof)
        self.files += [] if is_proof else [f"{TOP}/building/{it}.py" for it in ("sources", "unproved")]

    def looks(self):
        """A sum of how the files look from outside, which is cheap: their names, sizes and times of change."""
        found = hashlib.sha256(f"{kit()} {os.stat(f'{kit()}/KIT-ID').st_mtime_ns}\n{self.lines}".encode())
        for file in self.files:
            seen = os.stat(file)
            found.update(f"{file} {seen.st_size} {seen.st_mtime_ns}\n".encode())
        return found.hexdigest()

    def sum(self):
        """A sum of what the files hold, the same in each copy of the repository."""
        with open(f"{kit()}/KIT-ID", "rb") as it:
            total = hashlib.sha256(it.read() + self.lines.encode())
        for file in self.files:
            with open(file, "rb") as it:
                total.update(os.path.relpath(file, self.top).encode() + b"\n" + it.read())
        return total.hexdigest()

    def note(self):
        """What is noted beside a program that is made of them, as they are now."""
        return f"{self.sum()} {self.looks()}\n"


def is_made_of(program, sources):
    """Whether a program is there, and was made of these sources: by how they look, else by what they hold."""
    try:
        with open(f"{program}.made-of", encoding="utf-8") as note:
            total, looks = note.read().split()
        if not os.path.isfile(program):
            return False
    except (FileNotFoundError, ValueError):
        return False
    if looks == sources.looks():
        return True
    if total != sources.sum():
        return False
    with contextlib.suppress(OSError):
        note_made(program, sources.note())
    return True


def note_made(program, note):
    """Notes beside a program what it was made of."""
    with open(f"{program}.made-of.new", "w", encoding="utf-8") as file:
        file.write(note)
    os.replace(f"{program}.made-of.new", f"{program}.made-of")


def put(file, place):
    """Puts a copy of a file in its place, whole at any moment."""
    os.makedirs(os.path.dirname(place), exist_ok=True)
    shutil.copy(file, f"{place}.new")
    os.replace(f"{place}.new", place)


@contextlib.contextmanager
def alone(place):
    """Waits until no other run builds what is to be put into this place."""
    os.makedirs(os.path.dirname(place), exist_ok=True)
    with open(f"{place}.lock", "w", encoding="utf-8") as lock:
        try:
            fcntl.flock(lock, fcntl.LOCK_EX | fcntl.LOCK_NB)
        except BlockingIOError:
            say(f"waiting for another run that builds {os.path.relpath(place, TOP)}")
            fcntl.flock(lock, fcntl.LOCK_EX)
        yield
