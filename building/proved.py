"""A program with its proof: by `rt ci` over a copy of the crates that it stands on."""
import concurrent.futures
import contextlib
import functools
import inspect
import os
import re
import shutil
import subprocess
import sys
import tempfile
import threading
import time

from building.edits import try_edits_at_once
from building.sources import TOP, Sources, alone, crates_listed, is_made_of, is_program, module_of_the_kit, note_made, put, say

LEFT_OUT = shutil.ignore_patterns("out", "must-fail")
SHARE_OF_NEED = 0.6  # of the memory that `rt ci` expects of a check, by the lines below its crate: the most that one takes here is 0.54 of it


def proved(name):
    """Where a program with its proof is put."""
    return f"{TOP}/crates/{name}/out/{name}"


def copy_to_prove(sources, room):
    """A copy of the crates that a program stands on, with their lines of crates.txt."""
    for name in sources.below:
        shutil.copytree(f"{TOP}/crates/{name}", f"{room}/crates/{name}", ignore=LEFT_OUT)
    with open(f"{room}/crates.txt", "w", encoding="utf-8") as lines:
        lines.write(sources.lines)
    shutil.copy(f"{TOP}/HANDLES", room)


def deal_out(rt, tasks):
    """Runs the tasks of `rt ci` side by side, as its `in_lanes` does, but the next proof of the longest chain has all processors.

    A task, by its crate and kind, is what it waits for, its lines, its memory in bytes, and the call that does it with so many
    jobs. All others have one job each, so a few proofs beside the chain fill what it leaves idle. Returns what each call gave.
    """
    lanes, memory, behind = rt.processors(), 0.85 * rt.free(), {key: 0 for key in tasks}
    for key in reversed(tasks):  # a task stands behind those that it waits for
        behind[key] += tasks[key][1]
        for below in tasks[key][0]:
            behind[below] = max(behind[below], behind[key])
    left, running, given = sorted(tasks, key=lambda key: -behind[key]), {}, {}
    ending = getattr(rt, "ending", contextlib.nullcontext)  # which not each toolchain has: it ends what still runs where this stops
    with ending(), concurrent.futures.ThreadPoolExecutor(len(tasks)) as pool:
        while left or running:
            for key in [key for key in left if all(below in given for below in tasks[key][0])]:
                _, lines, needs, call = tasks[key]
                proofs = [other for other, _ in running.values() if tasks[other][1]]
                left_room = memory - sum(taken for _, taken in running.values())
                is_next = bool(lines) and not any(behind[other] >= behind[key] for other in proofs)
                jobs = max(1, min(lanes, 4, 1 + int((left_room / needs - 1) / 0.6))) if is_next else 1
                is_free = len(proofs) < max(2, lanes - 1) and needs <= left_room
                if is_free or not running or not lines:
                    left.remove(key)
                    running[pool.submit(call, given, jobs)] = key, needs * (1 + 0.6 * (jobs - 1))
            ended = concurrent.futures.wait(running, return_when=concurrent.futures.FIRST_COMPLETED).done
            given.update((running.pop(it)[0], it.result()) for it in ended)
    return given


def remember_answers(rt):
    """Has what `rt ci` asks again and again found once in a run: of a crate those below it and its stamp, the sum of its files and of the
    stamps of those below; of the toolchain how it reads two kinds of names. Else each way from crate to crate is gone again, of which there
    are a hundred thousand, and with two processors the proofs begin two minutes later. No file changes meanwhile: the run is over a copy."""
    library = getattr(rt, "rtlib", None)
    crate = getattr(library, "Crate", None)
    if hasattr(crate, "stamp"):
        stamp, stamps = crate.stamp, {}
        crate.stamp = lambda it: stamps.get(it.folder) or stamps.setdefault(it.folder, stamp(it))
    if hasattr(crate, "below"):
        below = functools.cache(crate.below)
        crate.below = lambda it: [*below(it)]
    for name in ("underscore_is_a_hole", "references_have_name_and_ptr"):
        if hasattr(library, name):
            setattr(library, name, functools.cache(getattr(library, name)))


def expect_less_memory(rt):
    """Has `rt ci` expect of a check what those of these crates take. Else the largest ones, of 4 to 6 GB, wait for each other on a machine of
    24 GB, with a processor idle."""
    need = getattr(rt, "need", None)
    if need:
        rt.need = lambda crate: int(SHARE_OF_NEED * need(crate))


def look_for_empty_contracts_in_turn(rt):
    """Has `rt ci` look for contracts that no call can meet in the crates whose must-fail edits it tries, and in no others. What it finds is
    advice, which fails nothing and takes one minute in twenty-five."""
    library, here = getattr(rt, "rtlib", None), threading.local()
    prove, help_of = getattr(getattr(library, "Crate", None), "prove", None), getattr(library, "help_of", None)
    if not prove or not help_of:
        return

    def prove_in_turn(crate, *commands):
        here.is_its_turn = os.path.isdir(f"{crate.folder}/must-fail")
        return prove(crate, *commands)

    def help_in_turn(command):
        said = help_of(command)
        return said if getattr(here, "is_its_turn", True) else said.replace("--empty-contracts", "")

    library.Crate.prove, library.help_of = prove_in_turn, help_in_turn


def leave_out_tests(rt, names):
    """Has `rt ci` leave out the tests of these crates."""
    crate = getattr(getattr(rt, "rtlib", None), "Crate", None)
    has_tests = getattr(crate, "has_tests", None)
    if has_tests:
        crate.has_tests = lambda it: it.name not in names and has_tests(it)


def run_proofs(is_chain_first, without_tests=()):
    """Is `rt ci` over the folder that it is run in, for a build with the order of this program, but for the tests of some crates. Returns the
    status."""
    rt = module_of_the_kit("rt")
    remember_answers(rt)
    expect_less_memory(rt)
    try_edits_at_once(rt)
    look_for_empty_contracts_in_turn(rt)
    if without_tests:
        leave_out_tests(rt, without_tests)
    if is_chain_first and [*inspect.signature(rt.in_lanes).parameters] == ["tasks"]:
        rt.in_lanes = functools.partial(deal_out, rt)
    return rt.main(["ci"])


def run_rt(name, words):
    """Runs a command of `rt` in a crate's folder, without the minutes for its stamps. No file may change meanwhile. Returns the status."""
    rt = module_of_the_kit("rt")
    remember_answers(rt)
    os.chdir(f"{TOP}/crates/{name}")
    return rt.main(words)


def run_edits(names):
    """Is `rt must-fail` over the folder that it is run in, without the minutes for its stamps. No file may change meanwhile. Returns the status."""
    rt = module_of_the_kit("rt")
    remember_answers(rt)
    try_edits_at_once(rt)
    return rt.main(["must-fail", *names])


def prove(room, count):
    """Proves all in a copy, and tells each crate that is done. Returns whether all are proved, and what was said."""
    began, said, done = time.monotonic(), [], 0
    words = {"cwd": room, "stdin": subprocess.DEVNULL, "stdout": subprocess.PIPE, "stderr": subprocess.STDOUT}
    command = [sys.executable, "-B", f"{TOP}/build", "--run-proofs"]
    with subprocess.Popen(command, text=True, errors="replace", **words) as run:
        for line in run.stdout:
            said.append(line)
            found = re.match(r"rt: (\w+) (proved$|is kept|NOT PROVED)", line)
            if found:
                done += 1
                how = {"proved": "proved", "is kept": "was proved before"}.get(found[2], "not proved")
                say(f"{found[1]}: {how} ({done} of {count}, {time.monotonic() - began:.0f} s)")
    return run.returncode == 0, said


def build_proved(name):
    """Proves and builds a program, where it isn't there, of these very sources."""
    sources, place = Sources(name, True), proved(name)
    if not is_program(name):
        sys.exit(f"build: there is no program {name}")
    with alone(place):
        if not is_made_of(place, sources):
            say(f"proving {len(sources.below)} crates, which takes some 25 minutes on four processors where none is kept")
            with tempfile.TemporaryDirectory(prefix="proved.") as room:
                copy_to_prove(sources, room)
                is_well, said = prove(room, len(sources.below))
                if not is_well:
                    sys.stderr.write("".join(said[-30:]))
                    sys.exit(f"build: {name} isn't proved, and isn't built")
                take(room)
    return place


def take(copy):
    """Puts the programs that were proved and built in a copy in their places, where they have the same sources here."""
    theirs = crates_listed(copy)
    for name in filter(is_program, crates_listed()):
        made = f"{copy}/crates/{name}/out/{name}"
        if name not in theirs or not os.path.isfile(made):
            continue
        sources = Sources(name, True)
        if sources.sum() == Sources(name, True, copy).sum():
            put(made, proved(name))
            note_made(proved(name), sources.note())
            say(f"{name} is proved, and built: crates/{name}/out/{name}")
