"""Tells how many jumps that a processor may not keep decoded a guest step meets in the loop over decoded words.

    bench/run jumps             ckrt_bench_probe on bench/guests/sha256-big.bin, which takes some minutes
    bench/run jumps COMMAND..   another program that has the loop and tells its steps

Processors from Skylake to Cascade Lake don't keep a line of 32 bytes among their decoded instructions where a jump in it
crosses or ends at its boundary; a comparison that is fused with a jump counts with it. A program that meets one at each step
may be slower by a fifth than the same code 16 bytes further on. Only a proved program has the loop as a function of its own.
It needs objdump and valgrind.
"""
import collections
import os
import re
import subprocess
import sys
import tempfile

from common import found, guest, steps_told

LOOP = "ckrt_memory::run::run_words"
LINE = 32
FUSED = ("cmp", "test", "dec", "inc", "add", "sub", "and")


def words_of_probe():
    """The command that is measured where none is named."""
    return [*found("ckrt_bench_probe"), "run", guest("sha256-big"), "64", "1", "65535"]


def instructions_of(program):
    """The instructions of the loop, with their addresses, in order."""
    words = ["objdump", "-d", "--no-show-raw-insn", f"--disassemble={LOOP}", program]
    text = subprocess.run(words, check=True, capture_output=True, text=True).stdout
    return [(int(at, 16), said) for at, said in re.findall(r"^\s+([0-9a-f]+):\s+(.*)$", text, re.MULTILINE)]


def badly_placed(instructions):
    """The addresses of the jumps that cross a boundary or end at one."""
    found = {}
    for before, here, behind in zip([(0, "-")] + instructions, instructions, instructions[1:]):
        at, said = here
        if not said.startswith(("j", "call", "ret")):
            continue
        is_fused = not said.startswith(("jmp", "call", "ret")) and before[1].startswith(FUSED)
        if (before[0] if is_fused else at) // LINE != behind[0] // LINE:
            found[at] = said
    return found


def counts_in(path):
    """How often each instruction of the loop was done, by its address."""
    counts, names, at, name, is_call = collections.Counter(), {}, 0, "", False
    with open(path, encoding="utf-8") as lines:
        for line in lines:
            if said := re.match(r"c?fn=\((\d+)\)(?: (.*))?", line):
                names.setdefault(said[1], (said[2] or "").strip())
                name = names[said[1]] if line.startswith("fn=") else name
            elif line.startswith("calls="):
                is_call = True
            elif said := re.match(r"(\*|[+-]?(?:0x)?[0-9a-f]+) \S+ (\d+)$", line):
                step = 0 if said[1] == "*" else int(said[1], 0)
                at = step if said[1].startswith("0x") else at + step
                if not is_call and LOOP in name:
                    counts[at] += int(said[2])
                is_call = False
    return counts


def main():
    """Measures, and prints what was found."""
    words = sys.argv[1:] or words_of_probe()
    instructions = instructions_of(words[0])
    if not instructions:
        sys.exit(f"jumps: {words[0]} has no function {LOOP}: it isn't proved, or `./build ckrt_bench_probe` makes it")
    with tempfile.TemporaryDirectory() as folder:
        made = os.path.join(folder, "counts")
        valgrind = ["valgrind", "--tool=callgrind", "--dump-instr=yes", f"--callgrind-out-file={made}"]
        said = subprocess.run(valgrind + words, check=True, capture_output=True)
        counts = counts_in(made)
    steps = steps_told((said.stdout + said.stderr).decode(errors="replace"))
    met = 0
    for at, said in badly_placed(instructions).items():
        met += counts[at]
        print(f"{at:x}: {said.split('<')[0].strip():40} {counts[at] / steps:.3f} a step")
    print(f"the loop begins at {instructions[0][0] % LINE} behind a boundary of {LINE} bytes")
    print(f"jumps at a boundary that a step meets: {met / steps:.2f}")
