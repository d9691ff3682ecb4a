"""For guests in gdb, in a session or with a core:

    gdb-multiarch -x gdb/ckrt.py PROGRAM.elf -ex 'target remote | ckrt debug DISK'
    gdb-multiarch -x gdb/ckrt.py PROGRAM.elf CORE

It makes the settings of ckrt.gdb, which lies beside. `step` goes over the kit's functions, whose sources are found where the kit lies, and
threads have the names that the guest gave them, as they are at each stop. `backtrace` leaves out frames of the kit. Where PROGRAM.elf has
other code than the guest's memory, it warns.
"""
import sys
from pathlib import Path

import gdb
from gdb.FrameDecorator import FrameDecorator

sys.dont_write_bytecode = True
HERE = Path(__file__).resolve().parent
KIT = "guest/source/*", "guest/files/*", "guest/arithmetic/*"  # as the kit's compiler names its sources
NAMES = "'guest/source/thread.c'::threads"  # each thread's record in the kit, by its number


def set_up():
    gdb.execute(f"source {HERE / 'ckrt.gdb'}")
    for pattern in KIT:
        gdb.execute(f"skip -gfile {pattern}", to_string=True)
    gdb.execute("define hook-step\npython choose_skips()\nend")
    if (HERE.parent / "guest/source").is_dir():
        # last, so that a file of the program is found first
        gdb.execute(f"set directories {gdb.parameter('directories')}:{HERE.parent}")
    if pattern := others_pattern():
        frames = WithoutKit(pattern)
        gdb.frame_filters[frames.name] = frames
    for events in gdb.events.stop, gdb.events.before_prompt:
        events.connect(lambda *_: look())
    look()  # at a core, which is there already


def look():
    """What is done at each stop."""
    name_threads()
    check_program()


def others_pattern():
    """How places in sources begin that aren't the user's, as the tools of the kit know them; None where the kit isn't there."""
    folder = str(HERE.parent / "guest")
    sys.path.insert(0, folder)
    try:
        from program import KIT as pattern
    except ImportError:
        return None
    finally:
        sys.path.remove(folder)
    return pattern


class WithoutKit:
    """A filter of gdb for the frames that `backtrace` prints. `backtrace -no-filters` prints all."""

    def __init__(self, pattern):
        self.name, self.priority, self.enabled, self.pattern = "without-kit", 100, True, pattern

    def filter(self, frames):
        """The user's frames, and of the kit's in a row that which the user's function called. All, where none is the user's."""
        row, has_own = [], False
        for frame in frames:
            if self.is_kit(frame.inferior_frame()):
                row.append(frame)
            else:
                yield from row[-1:]
                yield frame
                row, has_own = [], True
        if not has_own:
            yield from map(Unnamed, row)

    def is_kit(self, frame):
        """Whether a frame isn't one of the user's functions: by the file of its function, or since none is known. One without lines is the user's."""
        symtab = frame.function().symtab if frame.function() else frame.find_sal().symtab
        if symtab:
            return bool(self.pattern.match(symtab.filename.removeprefix("./") + ":"))
        return not frame.name()


class Unnamed(FrameDecorator):
    """A frame whose function isn't known, as gdb names it by itself."""

    def function(self):
        return super().function() or "??"


CHECKED = set()  # programs, each with the session that it was compared in


def check_program():
    """Warns where the program that gdb reads isn't that of the memory, the first time that both are there."""
    path, inferior = gdb.current_progspace().filename, gdb.selected_inferior()
    if not path or not inferior.pid or (path, inferior.connection_num) in CHECKED:
        return
    CHECKED.add((path, inferior.connection_num))
    try:
        said = gdb.execute("compare-sections .text", to_string=True)
    except gdb.error:
        return
    if "MIS-MATCHED" in said:
        print(f"warning: {path} isn't the program of this memory, or that has changed its own code: lines and variables are wrong. "
              "Name the ELF file that was made with the image.")


def choose_skips():
    """The kit is gone over onward alone: gdb 13 ends by an error of its own where it skips inlined functions on its way back."""
    rows = [line.split() for line in gdb.execute("info skip", to_string=True).splitlines()]
    numbers = " ".join(row[0] for row in rows if row[3:4] and row[3] in KIT)
    is_back = gdb.execute("show exec-direction", to_string=True).startswith("Reverse")
    if numbers:
        gdb.execute(f"skip {'disable' if is_back else 'enable'} {numbers}")


def name_threads():
    """Gives each thread its name; one without loses that which it had at another stop."""
    for thread in gdb.selected_inferior().threads():
        name = name_of(thread.ptid[1])
        if thread.name != name:
            thread.name = name


def name_of(number):
    """The name that the guest gave a thread; none where it gave none, or the program isn't known."""
    try:
        record = gdb.parse_and_eval(NAMES)[number]
        return record["name"].string("utf-8", "backslashreplace") or None if record else None
    except gdb.error:
        return None


set_up()
