"""The checks of the rows by which a tool goes from an address of a guest to its callers (docs/NAMES.md).

Guests are stopped at many moments, and the callers of each thread that a walk by these rows finds are compared with those that gdb finds in
a core of the same moment. What reads the call frame information is tried on texts and words that are written here.
"""
import os
import re
import shutil
import struct
import subprocess
import sys
from bisect import bisect_right

from shared import disks
from shared.programs import TOP

sys.path.insert(0, str(TOP / "guest"))
import frames  # noqa: E402

BUILD = TOP / "guest/build"
MOST = 64  # frames of a walk

# Functions that are called back by the C library, with frames of odd kinds: a frame whose size isn't known before it runs, one with many
# arguments, a function that calls itself, a handler that runs within a call of the kit, routines for numbers, and a jump back.
CALLERS = """#include <pthread.h>
#include <setjmp.h>
#include <stdio.h>
#include <stdlib.h>
#include <string.h>
static pthread_mutex_t lock = PTHREAD_MUTEX_INITIALIZER;
static int numbers[24];
static double sum;
static float share;
static long long product;
static jmp_buf back;
static int compare(const void *first, const void *second) {
    pthread_mutex_lock(&lock);
    int difference = *(const int *)first - *(const int *)second;
    pthread_mutex_unlock(&lock);
    return difference;
}
__attribute__((noinline)) static int deep(int left, int a, int b, int c, int d, int e, int f, int g, int h) {
    if (left == 0) longjmp(back, a + b + c + d + e + f + g + h);
    return deep(left - 1, b, c, d, e, f, g, h, a) + left;
}
__attribute__((noinline)) static void sized(int size) {
    char *bytes = __builtin_alloca(size);
    memset(bytes, size, size);
    for (int at = 0; at < size; at++) {
        sum += bytes[at] / 3.0;
        share = share * bytes[at] / 5 + 1;
        product = product * size % 1000003 + at;
    }
}
static void handler(void *unused) {
    (void)unused;
    char text[40];
    snprintf(text, sizeof text, "%d %.3f", numbers[3] % 7, sum);
    pthread_mutex_lock(&lock);
    puts(text);
    pthread_mutex_unlock(&lock);
}
static void *work(void *argument) {
    pthread_cleanup_push(handler, argument);
    for (int size = 1; size < 30; size += 9) sized(size);
    pthread_cleanup_pop(1);
    return argument;
}
int main(void) {
    pthread_t threads[2];
    for (int at = 0; at < 24; at++) numbers[at] = at * 37 % 24;
    for (int at = 0; at < 2; at++) pthread_create(&threads[at], 0, work, 0);
    qsort(numbers, 24, sizeof *numbers, compare);
    if (setjmp(back) == 0) deep(5, 1, 2, 3, 4, 5, 6, 7, 8);
    for (int at = 0; at < 2; at++) pthread_join(threads[at], 0);
    return 0;
}
"""
WAYS = (["-O2"], ["-O0"], ["-Os", "-msave-restore"], ["-O2", "-fno-omit-frame-pointer"])

# For each thread of each core the pcs of its frames. What was drawn into another function, or went on in another one, is no frame of its own.
ASK_GDB = """
import gdb
for path in {cores!r}:
    gdb.execute(f"core-file {{path}}", to_string=True)
    for thread in gdb.selected_inferior().threads():
        thread.switch()
        frame, pcs = gdb.newest_frame(), []
        while frame is not None and len(pcs) < 64:
            if frame.type() not in (gdb.INLINE_FRAME, gdb.TAILCALL_FRAME):
                pcs.append(frame.pc())
            try:
                frame = frame.older()
            except gdb.error:
                frame = None
        print("frames", path, thread.ptid[1], *(f"{{pc:08x}}" for pc in pcs))
"""


class Names:
    """What a file of names says of frames."""

    def __init__(self, path):
        self.kit, self.ups, self.texts = [], [], []
        for line in path.read_text().splitlines()[1:]:
            kind, begin, *words = line.split(" ")
            if kind == "kit":
                self.kit.append((int(begin, 16), int(words[0], 16)))
            elif kind == "up":
                self.ups.append((int(begin, 16), int(words[0], 16), *words[1:]))
            elif kind == "at":
                self.texts.append((int(begin, 16), int(words[0], 16), " ".join(words[1:])))

    @staticmethod
    def found(rows, address):
        at = bisect_right(rows, address, key=lambda row: row[0]) - 1
        return rows[at][2:] if at >= 0 and address < rows[at][0] + rows[at][1] else None

    def function(self, address):
        """The function that an address lies in, by the rows for lists."""
        found = self.found(self.texts, address)
        return found[0].rpartition(", in ")[2].partition(" at ")[0] if found else None


class Core:
    """The registers of each thread of a core, as [pc, x1, .., x31], and the memory (docs/CORE_FILES.md)."""

    def __init__(self, path):
        data = path.read_bytes()
        size, at = struct.unpack_from("<I", data, 52 + 16)[0], struct.unpack_from("<I", data, 84 + 4)[0]
        self.memory = data[at:]
        notes = range(116, 116 + size, 224)
        self.threads = {struct.unpack_from("<I", data, note + 20 + 24)[0]: struct.unpack_from("<32I", data, note + 20 + 72) for note in notes}

    def word(self, address):
        if address % 4 or not 4_096 <= address <= 4_096 + len(self.memory) - 4:
            return None
        return struct.unpack_from("<I", self.memory, address - 4_096)[0]


def callers(names, core, thread):
    """The pcs of a thread's frames, from its own on, as docs/NAMES.md says how a tool goes up."""
    registers = core.threads[thread]
    here, state, pcs = registers[0], {1: registers[1], 2: registers[2], 8: registers[8]}, [registers[0]]
    while len(pcs) < MOST and (words := names.found(names.ups, here)):
        register, offset, *places = words
        address = state[int(register)] + int(offset) & 0xFFFFFFFF
        before = [state[number] if place == f"x{number}" else core.word(address - int(place)) for number, place in zip((1, 8), places)]
        if None in before or core.word(before[0] - 4) is None:
            break
        here, state = before[0] - 4, {1: before[0], 2: address, 8: before[1]}
        pcs.append(before[0])
    return pcs


def of_gdb(program, cores, folder):
    """By the path of the core and the thread, the pcs of the frames that gdb finds."""
    script = folder / "ask.py"
    script.write_text(ASK_GDB.format(cores=list(map(str, cores))))
    words = ["gdb-multiarch", "-q", "-batch", "-ex", "set osabi none", "-ex", "set backtrace past-main on", "-ex", "set backtrace past-entry on",
             "-x", script, program]
    said = subprocess.run(list(map(str, words)), capture_output=True, text=True, check=False)
    found = re.findall(r"^frames (\S+) (\d+) (.*)$", said.stdout, re.MULTILINE)
    if not found:
        raise SystemExit(f"gdb says nothing of frames: {said.stdout[-500:]}{said.stderr[-500:]}")
    return {(path, int(thread)): [int(pc, 16) for pc in pcs.split()] for path, thread, pcs in found}


def stopped(ckrt, folder, source, options):
    """A guest's program, its names, and its cores at many moments: in the middle of what a turn of few steps does."""
    image = folder / "frames.bin"
    environment = {**os.environ, "CKRT_KEEP_NAMES": "yes"}
    subprocess.run([BUILD, source, *options, "-o", image], env=environment, check=True, capture_output=True)
    names = (folder / "frames.bin.names").rename(folder / "frames.names")
    disk = disks.make(ckrt, folder / "frames.disk", image, journal=1_048_576)
    subprocess.run([ckrt, "drive", disk, "--turn", "97"], check=False, capture_output=True)
    listing = subprocess.run([ckrt, "inspect", disk], check=True, capture_output=True, text=True).stdout
    events = int(re.match(r"events (\d+)", listing)[1])
    cores = []
    for moment in range(events % 11, events, max(1, events // 40)):
        core = folder / f"frames.{moment}.core"
        core.unlink(missing_ok=True)
        subprocess.run([ckrt, "core", disk, core, "--at", str(moment)], check=True, capture_output=True)
        cores.append(core)
    return image.with_suffix(".elf"), Names(names), cores


# Where a walk may end: functions that nobody called, those that have taken the return address away, and those whose caller's return
# address is in another register.
ENDS = re.compile(r"begin|__guest_start|__guest_thread_end|__riscv_(save|restore)_\d+|longjmp|__(?!guest)\w*[sd][if]\w*")


def compared(ckrt, folder, source, options, has_gdb):
    """What is wrong with the walks over one program. The last is a number: how many frames were found."""
    program, names, cores = stopped(ckrt, folder, source, options)
    theirs, count = of_gdb(program, cores, folder) if has_gdb else {}, 0
    for path in cores:
        core = Core(path)
        for thread in core.threads:
            ours = callers(names, core, thread)
            count += len(ours)
            what = f"{source.stem} {' '.join(options)}: {path.name}, thread {thread}: frames {' '.join(f'{pc:08x}' for pc in ours)}"
            last = names.function(ours[-1] - (4 if len(ours) > 1 else 0))
            if not ENDS.fullmatch(last or ""):
                yield f"{what} end in {last}"
            if has_gdb and ours != (gdb := theirs[str(path), thread])[:len(ours)]:
                yield f"{what}, where gdb has {' '.join(f'{pc:08x}' for pc in gdb)}"
    yield count


# --- What reads the call frame information ------------------------------------------------------------------------------

TOLD = """Contents of the .debug_frame section:


00000000 0000000c ffffffff CIE
  Version:               1
  Augmentation:          ""
  Code alignment factor: 1
  Data alignment factor: -4
  Return address column: 1

  DW_CFA_def_cfa_register: r2 (sp)
  DW_CFA_nop

00000010 00000018 00000000 FDE cie=00000000 pc=00002000..00002040
  DW_CFA_advance_loc: 4 to 00002004
  DW_CFA_def_cfa_offset: 16
  DW_CFA_advance_loc: 8 to 0000200c
  DW_CFA_offset: r1 (ra) at cfa-4
  DW_CFA_offset: r9 (s1) at cfa-12
  DW_CFA_offset: r8 (s0) at cfa-8
  DW_CFA_advance_loc: 4 to 00002010
  DW_CFA_def_cfa: r8 (s0) ofs 0
  DW_CFA_remember_state
  DW_CFA_advance_loc1: 16 to 00002020
  DW_CFA_restore: r1 (ra)
  DW_CFA_restore: r8 (s0)
  DW_CFA_def_cfa: r2 (sp) ofs 0
  DW_CFA_advance_loc: 4 to 00002024
  DW_CFA_restore_state
  DW_CFA_advance_loc: 4 to 00002028
  DW_CFA_register: r1 (ra) in r5 (t0)
  DW_CFA_advance_loc: 4 to 0000202c
  DW_CFA_same_value: r1 (ra)
  DW_CFA_advance_loc: 4 to 00002030
  DW_CFA_undefined: r1 (ra)
  DW_CFA_advance_loc: 4 to 00002034
  DW_CFA_restore: r1 (ra)
  DW_CFA_def_cfa_expression (DW_OP_breg2 (sp): 0)
  DW_CFA_advance_loc: 4 to 00002038
  DW_CFA_def_cfa: r2 (sp) ofs 32
  DW_CFA_advance_loc: 4 to 0000203c
  DW_CFA_nobody_knows: 7
  DW_CFA_nop

00000030 0000000c 00000000 FDE cie=00000000 pc=00002040..00002048
  DW_CFA_nop

00000040 0000000c 00000000 FDE cie=00000000 pc=00000000..00000008

Contents of the .eh_frame section:


00000000 00000010 00000000 CIE
  Version:               3
  Augmentation:          "zR"
  Return address column: 5
  DW_CFA_def_cfa_register: r2 (sp)

00000014 00000010 00000018 FDE cie=00000000 pc=00002048..00002050
  DW_CFA_advance_loc: 4 to 0000204c
"""
WANTED = [
    (0x2000, 0x2004, "2 0 x1 x8"), (0x2004, 0x200c, "2 16 x1 x8"), (0x200c, 0x2010, "2 16 4 8"), (0x2010, 0x2020, "8 0 4 8"),
    (0x2020, 0x2024, "2 0 x1 x8"), (0x2024, 0x2028, "8 0 4 8"), (0x202c, 0x2030, "8 0 x1 8"), (0x2038, 0x203c, "2 32 x1 8"),
    (0x2040, 0x2048, "2 0 x1 x8"), (0x2050, 0x2058, "2 0 x1 x8"),
]

# Functions, by what their instructions are, and whether they leave registers 1, 2 and 8 alone.
FUNCTIONS = [
    ([0x00A58533, 0x00008067], True),  # add a0, a1, a0; ret
    ([0x00050603, 0xFE061EE3, 0x00008067], True),  # lb a2, 0(a0); bnez a2; ret
    ([0x00112623, 0x00008067], True),  # sw ra, 12(sp); ret
    ([0x00000073, 0x00008067], True),  # ecall; ret
    ([0xFF010113, 0x01010113, 0x00008067], False),  # addi sp, sp, -16; addi sp, sp, 16; ret
    ([0x00812403, 0x00008067], False),  # lw s0, 8(sp); ret
    ([0x008000EF, 0x00008067], False),  # jal ra, 8; ret
    ([0x000280E7, 0x00008067], False),  # jalr ra, t0; ret
    ([0x00028067], False),  # jr t0
    ([0x00000413, 0x00008067], False),  # li s0, 0; ret
    ([0x00A58533, 0x00000001], False),  # add a0, a1, a0; no instruction
]


def bytes_of(words):
    return b"".join(word.to_bytes(4, "little") for word in words)


def read_texts():
    """The reader on a text and words of which is known what they say."""
    image = bytes(0x1050) + bytes_of(FUNCTIONS[0][0]) + bytes_of(FUNCTIONS[4][0])
    found = frames.ways(TOLD, image, [(0x2000, 0x2040), (0x2048, 0x2050), (0x2050, 0x2058), (0x2058, 0x2064)])
    if found != WANTED:
        yield f"the call frame information is read as {found}"
    for words, is_kept in FUNCTIONS:
        if frames.keeps_all(bytes_of(words)) != is_kept:
            yield f"a function of {' '.join(f'{word:08x}' for word in words)} {'does' if is_kept else 'does not'} keep the registers"


def failures(ckrt, folder):
    """All that is wrong, as texts."""
    yield from read_texts()
    has_gdb, count = bool(shutil.which("gdb-multiarch")), 0
    source = folder / "callers.c"
    source.write_text(CALLERS)
    for program, options in [*((source, options) for options in WAYS), (TOP / "guest/examples/pool.c", []), (TOP / "guest/bugs/aba.c", [])]:
        *wrong, found = compared(ckrt, folder, program, options, has_gdb)
        yield from wrong[:3]
        count += found
    if count < 1_000:
        yield f"only {count} frames were found"
