"""The checks of the guest kit that aren't a comparison of outputs: refusals and their texts, endings, tools, and words."""
import random
import re
import subprocess

from shared import disks, kit_frames, lives
from shared.programs import TOP

ENDINGS = TOP / "tests/programs/endings"
BUILD, CC, CXX, IMAGE, WHERE, NAMES = (TOP / "guest" / name for name in ("build", "cc", "c++", "image", "where", "names"))
TOOL = "riscv64-unknown-elf-"

TEXT = b"""When the power may go at any moment, a program that is to come back has to know what it did.
Each choice from outside stands in a journal: which thread ran, how long, what was typed, when the clock ticked.
A journal that is complete can be read again, and the program does again what it did.
What was printed stays printed; what wasn't acknowledged may be lost, and nothing else.

The reader doesn't wait for the writer, and the writer waits for the reader only where the journal is full.
""" * 3


def call(*words):
    """Runs a command that has to go well; what it printed."""
    done = subprocess.run([str(word) for word in words], capture_output=True, text=True, check=False)
    if done.returncode:
        raise SystemExit(f"{' '.join(map(str, words))}\n{done.stdout}{done.stderr}")
    return done.stdout


def formula(variables, clauses, seed):
    """A formula of clauses of three literals, in the DIMACS format."""
    chance = random.Random(seed)
    lines = [f"c of {seed}", f"p cnf {variables} {clauses}"]
    for _ in range(clauses):
        three = chance.sample(range(1, variables + 1), 3)
        lines.append(" ".join(str(chance.choice([1, -1]) * literal) for literal in three) + " 0")
    return "".join(line + "\n" for line in lines).encode()


# --- Refusals ---------------------------------------------------------------------------------------------------------

NO_FILES = "a guest has files by the option -files alone"
REFUSED_SOURCES = [
    ("#include <signal.h>\nint end(void) { return kill(1, SIGINT); }", "kill: a guest has no signals for others: raise"),
    ("#include <stdio.h>\nFILE *file(void) { return fopen(\"name\", \"r\"); }", NO_FILES),
    ("#include <unistd.h>\nint two(void) { return fork(); }", "fork: a guest is one process"),
    ("#include <fcntl.h>\nint file(void) { return open(\"name\", 0); }", f"open: {NO_FILES}"),
    ("#include <stdlib.h>\nint run(void) { return system(\"ls\"); }", "a guest is one process"),
    ("#include <pthread.h>\nint one(void) { return pthread_setaffinity_np(pthread_self(), 0, 0); }",
     "pthread_setaffinity_np: who runs is decided outside"),
    ("#include <unistd.h>\nint late(void) { return alarm(1); }", "alarm: a guest has no signals from outside"),
    ("char many[300000000]; char *all(void) { return many; }", "more than the 65,536 pages"),
]
REFUSED_WORDS = [
    ([BUILD, "{c}", "-o", "{folder}/none/program.bin"], "there is no folder"),
    ([BUILD, "{c}", "-o", "{folder}"], "that is a folder"),
    ([BUILD, "{c}", "-o"], "-o needs the name"),
    ([BUILD, "{c}", "nonsense", "-o", "{folder}/p.bin"], "nonsense is neither an option nor a file"),
    ([BUILD, "{folder}/none.c", "-o", "{folder}/p.bin"], "none.c is neither an option nor a file"),
    ([BUILD, "-c", "{c}", "-o", "{folder}/p.bin"], "guest/cc takes it"),
    ([BUILD, "{c}", "-o", "{folder}/p.bin", "--env", "GREETING"], "it has to be NAME=VALUE"),
    ([BUILD], "usage: guest/build"),
    ([BUILD, "{folder}/long.c", "-o", "{folder}/p.bin", "-DPICOLIBC_INTEGER_PRINTF_SCANF"], "the text \"it is %-8.3Lf\" has a long double"),
    ([CC, "-shared", "{c}"], "no shared libraries"),
    ([CC, "-fsanitize=thread", "{c}"], "-fsanitize=thread: a guest has no library for it"),
    ([CC, "-fsanitize=undefined", "{c}"], "with -fsanitize-trap=all it needs none"),
    ([CC, "{folder}/none.c"], "there is no such file"),
    ([CC], "no source is named"),
    ([IMAGE, "{folder}/none"], "No such file"),
    ([IMAGE, "{folder}/empty"], "it is empty"),
    ([IMAGE, "{c}"], "it is no ELF file"),
    ([IMAGE, "{folder}/host"], "it is for "),
    ([IMAGE, "{folder}/object.o"], "it is an object: link it first"),
    ([IMAGE, "{folder}/stripped"], "the kit's symbols aren't there"),
    ([WHERE, "{folder}/host"], "usage: guest/where"),
    ([WHERE, "{folder}/none", "1000"], "there is no such file"),
    ([WHERE, "{folder}/host", "main"], "hexadecimal digits"),
    ([NAMES, "{folder}/none"], "there is no such file"),
]


def refused_sources(folder):
    for number, (text, reason) in enumerate(REFUSED_SOURCES):
        source, image = folder / "refused.c", folder / f"refused.{number}.bin"
        source.write_text(f"{text}\nint main(void) {{ return 0; }}\n")
        done = subprocess.run([BUILD, source, "-o", image, "-Wl,--no-gc-sections"], capture_output=True, text=True, check=False)
        if done.returncode == 0 or image.exists():
            yield f"guest/build takes: {text}"
        elif reason not in done.stderr:
            yield f"guest/build of: {text}\n  has no text {reason!r}, but {done.stderr!r}"


def refused_words(folder):
    places = {"folder": str(folder), "c": str(folder / "fine.c")}
    (folder / "fine.c").write_text("int main(void) { return 0; }\n")
    (folder / "long.c").write_text("#include <stdio.h>\nint main(void) { return printf(\"it is %-8.3Lf\\n\", 1.5L); }\n")
    (folder / "empty").write_bytes(b"")
    call("cc", folder / "fine.c", "-o", folder / "host")
    call(CC, "-c", folder / "fine.c", "-o", folder / "object.o")
    call(CC, folder / "fine.c", "-o", folder / "whole")
    call(f"{TOOL}strip", folder / "whole", "-o", folder / "stripped")
    for words, reason in REFUSED_WORDS:
        given = [str(word).format(**places) for word in words]
        done = subprocess.run(given, capture_output=True, text=True, check=False, cwd=folder)
        if done.returncode == 0 or reason not in done.stderr:
            yield f"{' '.join(given)}: status {done.returncode}, and no text {reason!r}, but {done.stderr!r}"


# --- Endings ----------------------------------------------------------------------------------------------------------

OVERFLOWED = "stack of thread {} overflowed\n"


def overflow(way, place, *more):
    return [f"-DWAY={way}", f"-DIN_MAIN={int(place == 'main')}", f"-DIN_MALLOC={int('malloc' in more)}", "-w"]


# 1e-5 has 65 digits; of all others a text has more bytes than an int counts.
OVERLONG = "".join(f"{line}\n" for line in [
    "%.2147483647f -1 EOVERFLOW", "%.2147483642e -1 EOVERFLOW", "%.2147483647a -1 EOVERFLOW", "%#.2147483647g -1 EOVERFLOW",
    "%.2147483647g 70", "%*d -1 EOVERFLOW", "%+.*d -1 EOVERFLOW", "x%*d -1 EOVERFLOW"])

ENDED = [  # a program, its options, pages, how it ends and what it prints
    ("overflow.c", overflow("wide", "main"), 64, "exit 134", "begin\n" + OVERFLOWED.format(1)),
    ("overflow.c", overflow("recursion", "main"), 64, "exit 134", "begin\n" + OVERFLOWED.format(1)),
    ("overflow.c", overflow("wide_call", "main"), 64, "exit 134", "begin\n" + OVERFLOWED.format(1)),
    ("overflow.c", overflow("wide", "thread"), 64, "exit 134", "begin\n" + OVERFLOWED.format(2)),
    ("overflow.c", overflow("recursion", "thread"), 64, "exit 134", "begin\n" + OVERFLOWED.format(2)),
    ("overflow.c", overflow("recursion", "thread", "malloc"), 64, "exit 134", "begin\n" + OVERFLOWED.format(2)),
    ("overflow.c", overflow("wide_call", "thread"), 64, "exit 134", "begin\n" + OVERFLOWED.format(2)),
    ("overflow.c", overflow("recursion", "thread"), 256, "exit 0", "begin\nnever printed\n"),  # 64 KiB are enough
    ("no_stack.c", [], 64, "exit 3", "{stack}\nEAGAIN\n"),
    ("long_double.c", [], 64, "exit 134", "begin\na guest can't read a long double by a format: read a double, or take strtold\n"),
    ("held_stream.c", [], 64, "exit 0", "who holds the stream prints on\ncancelled\n"),
    ("asserted.c", [], 64, "exit 134", "assertion \"1 + 1 == 3\" failed: file \"asserted.c\", line 7, function: main\n"),
    ("overlong.c", [], 64, "exit 0", OVERLONG),
    ("signals.c", ["-DENDING=abort()"], 64, "exit 134", "begin\nsignal 1\n"),
    ("signals.c", ["-DENDING=raise(SIGABRT),signal(SIGABRT,SIG_IGN),abort()"], 64, "exit 134", "begin\nsignal 1\n"),
    ("signals.c", ["-DENDING=raise(SIGTERM)"], 64, "exit 143", "begin\n"),
    ("large.c", [], 64, "exit 126", "this guest needs {pages} pages at least: format its disk with --pages\n"),
    ("large.c", [], 100, "exit 0", "1\n"),
]


def driven(ckrt, image, folder, *options, pages=64):
    """Formats a disk and drives it to its end: the last line on standard error, and the output."""
    disk, output = folder / "driven.disk", folder / "driven.txt"
    output.unlink(missing_ok=True)
    disks.make(ckrt, disk, image, pages=pages, journal=65_536, harts=2)
    done = subprocess.run([ckrt, "drive", disk, "--output", output, *options], capture_output=True, text=True,
                          check=False, timeout=100)
    return done.stderr.strip().rsplit("\n", 1)[-1], output.read_text() if output.exists() else ""


def endings(ckrt, folder):
    for name, options, pages, ending, printed in ENDED:
        image = folder / "ending.bin"
        said = call(BUILD, ENDINGS / name, "-o", image, *options)
        needed, stack = (re.search(text, said)[1] for text in (r"(\d+) pages at least", r"first new thread's stack takes (\d+)"))
        found = driven(ckrt, image, folder, pages=pages)
        wanted = (f"ended: {ending}", printed.format(pages=needed, stack=stack))
        if found != wanted:
            yield f"{name} {' '.join(options)} on {pages} pages: {found!r}, and not {wanted!r}"
        if int(needed) > 64 and f"format its disk with --pages {needed}" not in said:
            yield f"guest/build of {name} says nothing of more than 64 pages: {said!r}"


CREWS = [(1, 60_000, 4), (4, 1_000, 1), (4, 70_000, 900), (16, 30_000, 64), (16, 3_000_000, 4)]  # threads, bytes of variables and of thread-local ones


def crews(ckrt, folder):
    """The pages that are told for new threads do, and one page less doesn't."""
    for threads, bytes_of_variables, own in CREWS:
        image = folder / "crew.bin"
        said = call(BUILD, ENDINGS / "crew.c", "-o", image, f"-DTHREADS={threads}", f"-DBYTES={bytes_of_variables}", f"-DOWN={own}")
        pages = int(re.search(rf"(\d+) for {threads}\b", said)[1])
        least = int(re.search(r"(\d+) pages at least", said)[1])
        wanted = [(pages, ("ended: exit 0", "all\n"))] + [(pages - 1, ("ended: exit 1", "too few\n"))] * (pages > least)
        for number, ending in wanted:
            found = driven(ckrt, image, folder, pages=number)
            if found != ending:
                yield f"crew.c with {threads} threads on {number} pages: {found!r}, and not {ending!r}, where guest/build said {said!r}"


# --- Tools ------------------------------------------------------------------------------------------------------------

DEADLOCK = """#include <pthread.h>
#include <stdlib.h>
struct fork { int uses; pthread_mutex_t lock; };
static struct fork forks[5];
static pthread_mutex_t grid[2][3];
static pthread_barrier_t both;
static void take(pthread_mutex_t *first, pthread_mutex_t *second) {
    pthread_mutex_lock(first);
    pthread_barrier_wait(&both);
    pthread_mutex_lock(second);
}
static void *one(void *unused) { take(&forks[1].lock, &grid[1][2]); return unused; }
static void *two(void *unused) { take(&grid[1][2], &forks[1].lock); return unused; }
static void *ends(void *unused) { volatile int zero = 0; *(volatile int *)zero = 1; return unused; }
int main(int count, char **arguments) {
    pthread_t threads[2];
    (void)arguments;
    pthread_barrier_init(&both, NULL, 2);
    pthread_create(&threads[0], NULL, count > 1 ? ends : one, NULL);
    pthread_create(&threads[1], NULL, two, NULL);
    pthread_join(threads[0], NULL);
    abort();
}
"""
NAMED = [
    r"^thread 1 .* # pthread_join at guest/source/thread\.c:\d+$",
    r"^thread 2 .* # pthread_mutex_lock at guest/source/mutex\.c:\d+$",
    r"^wait 2 mutex [0-9a-f]{8}    # grid\[1\]\[2\]$",
    r"^wait 3 mutex [0-9a-f]{8}    # forks\[1\]\.lock$",
    r"^mutex [0-9a-f]{8} normal 2 1    # forks\[1\]\.lock$",
    r"^barrier [0-9a-f]{8} 2    # both$",
]


def tools(ckrt, folder):
    (folder / "tools").mkdir()
    source, image, program = (folder / "tools" / f"deadlock.{ending}" for ending in ("c", "bin", "elf"))
    source.write_text(DEADLOCK)
    call("sh", "-c", f"cd {source.parent} && {BUILD} deadlock.c -o deadlock.bin")
    ending, _ = driven(ckrt, image, folder)
    listing = lives.listing(ckrt, folder / "driven.disk")
    named = subprocess.run([NAMES, program], input=listing, capture_output=True, text=True, check=True).stdout
    if ending != "deadlock":
        yield f"the deadlock ends by {ending!r}"
    yield from (f"guest/names has no line {line!r} in\n{named}" for line in NAMED if not re.search(line, named, re.MULTILINE))

    call(IMAGE, program, "-o", image, "--", "fault")
    ending, _ = driven(ckrt, image, folder)
    fault = re.fullmatch(r"ended: fault 2 ([0-9a-f]{8}) StoreRange [0-9a-f]{8}", ending)
    place = call(WHERE, program, fault[1]) if fault else ""
    if place != f"{fault[1] if fault else ''} ends at deadlock.c:14\n":
        yield f"the fault {ending!r} is at {place!r}"
    names = re.findall(r"DW_AT_(?:name|comp_dir).*: (.*)$", call(f"{TOOL}objdump", "--dwarf=info", program), re.MULTILINE)
    if foreign := [name for name in names if name.startswith((str(TOP), str(folder)))]:
        yield f"file names that aren't relative: {foreign[:3]}"
    frames = call(BUILD, source, "-o", image, "--stack")
    if not re.search(r"^ +\d+  .*deadlock\.c:15 main$", frames, re.MULTILINE):
        yield f"--stack doesn't list main: {frames!r}"
    if ".eh_frame" not in call(f"{TOOL}objdump", "-h", program):
        yield "the program has no .eh_frame"


# --- Headers ----------------------------------------------------------------------------------------------------------

HEADERS = ["limits", "pthread", "semaphore", "sched", "setjmp", "signal", "stdatomic", "stdio", "stdlib", "threads", "time", "unistd"]
STRICT = ["-pedantic", "-Wall", "-Wextra", "-Wstrict-prototypes", "-Werror", "-c"]


def headers(folder):
    """Our headers are taken by the strictest words of each language, each alone and all together."""
    for name, compiler, standard, some in [("headers.c", CC, "c89", set(HEADERS) - {"stdatomic"}), ("headers.c", CC, "c11", HEADERS),
                                           ("headers.cc", CXX, "c++11", set(HEADERS) - {"stdatomic"})]:
        for chosen in [*([header] for header in sorted(some)), sorted(some)]:
            source = folder / name
            source.write_text("".join(f"#include <{header}.h>\n" for header in chosen) + "extern int nothing;\n")
            options = [word for word in STRICT if standard != "c++11" or word != "-Wstrict-prototypes"]
            done = subprocess.run([compiler, f"-std={standard}", *options, source, "-o", folder / "headers.o"],
                                  capture_output=True, text=True, check=False)
            if done.returncode:
                yield f"{' '.join(chosen)} as {standard}: {done.stderr}"


# --- What else the compiler does ---------------------------------------------------------------------------------------

TYPES = """#include <inttypes.h>
#include <stdio.h>
int main(void) {
    uint32_t number = UINT32_C(4000000000);
    int32_t least = INT32_MIN;
    printf("%u %d %" PRIu32 " %x\\n", number, least, UINT32_MAX, UINT32_C(255));
    return 0;
}
"""
OVER = """int main(int count, char **arguments) {
    int sum = 2147483646 + count;
    (void)arguments;
    return count > 0 ? sum + count : 0;
}
"""


def types(ckrt, folder):
    """A format of %u takes a uint32_t, as on Linux."""
    source, image = folder / "types.c", folder / "types.bin"
    source.write_text(TYPES)
    call(BUILD, source, "-o", image, "-Wall", "-Wextra", "-Werror", "-Wformat=2")
    found = driven(ckrt, image, folder)
    if found != ("ended: exit 0", "4000000000 -2147483648 4294967295 ff\n"):
        yield f"types of 32 bits: {found!r}"


def digits(ckrt, folder):
    """Numbers of any size: more than a schedule with kills has the time for."""
    source, image, here = TOP / "tests/programs/digits.c", folder / "digits.bin", folder / "digits.host"
    call("cc", "-std=gnu11", "-O2", "-DTRIED=400", source, "-o", here)
    call(BUILD, source, "-o", image, "-DTRIED=400")
    found = driven(ckrt, image, folder)
    if found != ("ended: exit 0", call(here)):
        yield f"digits of 400 numbers: {found!r}"


def traps(ckrt, folder):
    """Undefined behaviour is a fault where the program was built so, and guest/where names its line."""
    source, image = folder / "over.c", folder / "over.bin"
    source.write_text(OVER)
    for word in ["-fsanitize-trap=all", "-fsanitize-undefined-trap-on-error"]:
        call(BUILD, source, "-o", image, "-fsanitize=undefined", word)
        ending, _ = driven(ckrt, image, folder)
        fault = re.fullmatch(r"ended: fault 1 ([0-9a-f]{8}) Breakpoint( .*)?", ending)
        place = call(WHERE, folder / "over.elf", fault[1]) if fault else ""
        if not re.search(r"over\.c:4$", place.strip()):
            yield f"{word}: {ending!r} at {place!r}"


def ends(ckrt, folder):
    """The last pc of a process that ended lies in the function that made the last call, and NULL's members in no variable."""
    source, image = folder / "ending.c", folder / "ending.bin"
    source.write_text("#include <stdlib.h>\nint main(void) { exit(3); }\n")
    call(BUILD, source, "-o", image)
    ending, _ = driven(ckrt, image, folder)
    listing = call(ckrt, "inspect", folder / "driven.disk")
    pc = re.search(r"^thread 1 .* pc ([0-9a-f]{8})", listing, re.MULTILINE)
    places = call(WHERE, folder / "ending.elf", pc[1], "00000000", "00000008").splitlines() if pc else []
    if ending != "ended: exit 3" or [it.split(" ", 1)[1].split(" at ")[0] for it in places] != ["__guest_stop", "the null page", "the null page"]:
        yield f"the end of a process: {ending!r} at {places!r}"


def cache(folder):
    """Below a prefix that can't be written the kit's objects are kept in the user's cache."""
    prefix, kept = folder / "prefix", folder / "cache"
    prefix.mkdir()
    call("cp", "-r", TOP / "guest", prefix)
    (prefix / "out").write_text("no folder")
    call("env", f"XDG_CACHE_HOME={kept}", prefix / "guest/cc", folder / "fine.c", "-o", folder / "fine")
    objects = [path.parent for path in kept.glob("ckrt/kit/*/thread.o")]
    if len(objects) != 1:
        yield f"the cache has {objects}"
        return
    (objects[0] / "join.o").unlink()
    call("env", f"XDG_CACHE_HOME={kept}", prefix / "guest/cc", folder / "fine.c", "-o", folder / "fine")
    if (objects[0] / "join.o").exists():
        yield "what is in the cache was made anew"


# --- Dependencies, and a project that is driven on ----------------------------------------------------------------------

def projects(ckrt, folder):
    """A project whose header changes is made anew, and its program goes on where a drive was stopped."""
    place = folder / "project"
    call("cp", "-r", TOP / "tests/programs/percolation", place)
    make = ["make", "-C", place, f"CC={CC}"]
    call(*make)
    if "up to date" not in call(*make):
        yield "make builds anew what is there"
    (place / "grid.h").touch()
    if "grid.o" not in call(*make) or "up to date" not in call(*make):
        yield "make doesn't build anew what a changed header is in"
    call(IMAGE, place / "percolation", "--", "6", "8")
    ending, whole = driven(ckrt, place / "percolation.bin", folder)
    ends = [driven(ckrt, place / "percolation.bin", folder, "--events", "5", "--turn", "20000")[0]]
    while ends[-1] == "enough" and len(ends) < 10_000:
        ends.append(subprocess.run([ckrt, "drive", folder / "driven.disk", "--output", folder / "driven.txt", "--events", "5",
                                    "--turn", "20000"], capture_output=True, text=True, check=False).stderr.strip())
    again = (folder / "driven.txt").read_text()
    if (ending, ends[-1]) != ("ended: exit 0", "ended: exit 0") or len(ends) < 5 or again != whole or len(whole) < 100:
        yield f"percolation: {ending}, {ends[-1]} after {len(ends)} drives, {whole!r}, {again!r}"


# --- Words ------------------------------------------------------------------------------------------------------------

# The routines of the compiler's library that a run loop may know by their words, as they are in the images of version 1.
ROUTINES = {
    "__mulsi3": "00050613 00000513 0015f693 00068463 00c50533 0015d593 00161613 fe0596e3 00008067",
    "__udivsi3": "00058613 00050593 fff00513 02060c63 00100693 00b67a63 00c05863 00161613 00169693 feb66ae3 00000513 "
                 "00c5e663 40c585b3 00d56533 0016d693 00165613 fe0696e3 00008067",
}


def words(folder):
    """The routines are linked with the words that a run loop knows."""
    program = folder / "words.elf"
    call(CC, TOP / "guest/examples/pi.c", "-o", program)
    symbols = {name: int(value, 16) for value, _, name in re.findall(r"^(\w+) (\w) (\S+)$", call(f"{TOOL}nm", program), re.MULTILINE)}
    listing = call(f"{TOOL}objdump", "-d", program)
    at = {int(place, 16): word for place, word in re.findall(r"^ +([0-9a-f]+):\t([0-9a-f]{8})", listing, re.MULTILINE)}
    for name, wanted in ROUTINES.items():
        begin = symbols[name if name in symbols else f"__hidden_{name}"]
        found = " ".join(at[begin + 4 * number] for number in range(len(wanted.split())))
        if found != wanted:
            yield f"{name} has other words than a run loop knows: {found}"


def callers(ckrt, folder):
    """By the rows of a file of names the callers of each thread are found, as gdb finds them."""
    place = folder / "callers"
    place.mkdir()
    yield from kit_frames.failures(ckrt, place)


def failures(ckrt, folder):
    """All that is wrong, as texts."""
    checks = [refused_sources(folder), refused_words(folder), endings(ckrt, folder), crews(ckrt, folder), tools(ckrt, folder), headers(folder),
              types(ckrt, folder), digits(ckrt, folder), traps(ckrt, folder), ends(ckrt, folder), cache(folder), projects(ckrt, folder), words(folder), callers(ckrt, folder)]
    found = []
    for check in checks:
        wrong = list(check)
        print(f"{check.__name__.replace('_', ' '):16}{'as they should be' if not wrong else 'wrong'}", flush=True)
        found += wrong
    return found
