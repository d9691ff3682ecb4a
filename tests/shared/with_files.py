"""Programs with files: what they leave here, and how they are built for a guest."""
import resource
import subprocess
import tarfile
from dataclasses import dataclass, field
from pathlib import Path

from shared.comparing import Failure
from shared.disks import LEAST_JOURNAL
from shared.programs import TOP

PROGRAMS = TOP / "tests/programs/files"
BUILD, CC, IMAGE, MAKER = (TOP / "guest" / name for name in ("build", "cc", "image", "ckrt-files"))
OWN = {"stdout", "stderr", ".ckrt-files"}
HOST = ["cc", "-std=gnu11", "-O2", "-Wall", "-Wextra", "-Werror", "-D_GNU_SOURCE", "-pthread"]
OPEN_HERE = 256  # files that a program may have open here, so that it finds the end of them too


def call(*words, **how):
    """Runs a command that has to go well; what it printed."""
    done = subprocess.run([str(word) for word in words], capture_output=True, text=True, check=False, **how)
    if done.returncode:
        raise Failure(f"{' '.join(map(str, words))}: {done.stdout}{done.stderr}")
    return done.stdout


@dataclass
class Program:
    """A program, how it is built, and what it is given."""

    name: str
    sources: list
    pages: int = 64
    arguments: tuple = ()
    files: dict = field(default_factory=dict)  # its bytes by name, which it finds
    is_tar: bool = False
    words: tuple = ()
    harts: int = 1
    turn: int = 50_000  # steps, so that a life that is cut early has done something
    rounds: int = 8  # in a commit
    journal: int = LEAST_JOURNAL


def write_files(files, folder):
    for name, data in files.items():
        (folder / name).parent.mkdir(parents=True, exist_ok=True)
        (folder / name).write_bytes(data)


def tree_of(folder, without=()):
    """What is in a folder: the bytes of files, and None for folders, by name."""
    found = {}
    for path in folder.rglob("*"):
        name = str(path.relative_to(folder))
        if name not in without:
            found[name] = None if path.is_dir() else path.read_bytes()
    return found


def run_here(program, folder):
    """The files that a program leaves here, what it prints, and its status."""
    call(*HOST, *program.words, *program.sources, "-o", folder / "binary")
    return leave_here(program, folder / "binary", folder)


def leave_here(program, binary, folder):
    """As `run_here`, of a program that is built."""
    room = folder / "here"
    room.mkdir()
    write_files(program.files, room)
    with open(folder / "out", "wb") as out, open(folder / "err", "wb") as err:
        done = subprocess.run([binary, *program.arguments], cwd=room, stdin=subprocess.DEVNULL, stdout=out, stderr=err, check=False, env={},
                              preexec_fn=lambda: resource.setrlimit(resource.RLIMIT_NOFILE, (OPEN_HERE, OPEN_HERE)))
    return tree_of(room), (folder / "out").read_bytes(), (folder / "err").read_bytes(), done.returncode


def left_unchanged(files, given):
    """Files without those that are as they were given: these don't go out, nor do folders that hold nothing else."""
    kept = {name: data for name, data in files.items() if data is not None and given.get(name) != data}
    folders = {name for name in files if files[name] is None and not any(it.startswith(f"{name}/") for it in given)}
    for name in kept:
        folders |= {str(parent) for parent in Path(name).parents if str(parent) != "."}
    return kept | dict.fromkeys(folders)


def build(program, folder):
    """Builds a program for the guest, with what it is given. The path of its image."""
    image, given, words = folder / "guest.bin", folder / "given", []
    given.mkdir()
    write_files(program.files, given)
    if program.is_tar:
        words = ["--input-is-tar"]
        with tarfile.open(folder / "given.tar", "w") as archive:
            archive.add(given, ".")
    elif program.files:
        words = [word for name in program.files for word in ("--file", f"{name}={given / name}")]
    call(BUILD, *program.sources, "-o", image, "-files", "-D_GNU_SOURCE", "-Wall", "-Wextra", "-Werror", *program.words, *words, "--", *program.arguments)
    return image
