"""The guests of bench/guests that have C sources, as programs of the host, and of Linux on RV32I, which qemu-user runs. Those that
compute doubles have the same computation in Python too.
"""
import os
import shutil
import subprocess

BENCH = os.path.dirname(os.path.abspath(__file__))
GUESTS = os.path.join(BENCH, "guests")
MADE = os.path.join(BENCH, "out")
HOST = "cc -O2 -std=gnu11 -ffp-contract=off".split()
LINUX = """riscv64-unknown-elf-gcc -DFOR_LINUX -march=rv32i -mabi=ilp32 -msmall-data-limit=0 -std=gnu11 -O2 -ffreestanding
    -ffunction-sections -nostdlib -Wl,--no-warn-rwx-segments,--gc-sections,--no-relax,-ebegin""".split()
# The processor that the machine is: no multiplication, no compressed instructions, no registers of floating point.
QEMU = "qemu-riscv32 -cpu rv32,m=false,a=false,f=false,d=false,c=false".split()


def made(name, compiler, kind, libraries=()):
    """The program of a guest's source, or nothing where there is no source or no compiler."""
    source = os.path.join(GUESTS, name + ".c")
    if not os.path.exists(source) or not shutil.which(compiler[0]):
        return None
    os.makedirs(MADE, exist_ok=True)
    program = os.path.join(MADE, f"{name}.{kind}")
    subprocess.run([*compiler, source, *libraries, "-o", program], check=True)
    return program


def on_host(name, rounds=None):
    """The words that run a guest's source as a program of the host, or nothing. It may make another number of rounds."""
    kind, options = ("host", []) if rounds is None else (f"host.{rounds}", [f"-DROUNDS={rounds}"])
    program = made(name, [*HOST, *options], kind, ["-lm"])
    return program and [program]


def kit_objects():
    """The kit's arithmetic, as bench/guests/build links it."""
    folder = os.path.join(MADE, "arithmetic")
    subprocess.run([os.path.join(GUESTS, "arithmetic"), folder], check=True)
    return sorted(os.path.join(folder, name) for name in os.listdir(folder) if name.endswith(".o"))


def on_qemu(name, objects=()):
    """The words that run it as one of Linux on RV32I, with these objects, or nothing where qemu-user isn't installed."""
    program = shutil.which(QEMU[0]) and made(name, LINUX, "linux", [*objects, "-lgcc"])
    return program and [*QEMU, program]


def on_python(name):
    """The words that run the same computation by Python, or nothing where there is none."""
    source, python = os.path.join(GUESTS, name + ".py"), shutil.which("python3")
    return [python, source] if python and os.path.exists(source) else None
