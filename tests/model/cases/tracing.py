"""Runs `ckrt` one system call after the other (Linux on x86-64 alone).

A line is fed only when the program reads for it. Each write and sync of the disk's file is seen; at one of them the
program is killed, or the call fails, or its bytes go in parts.
"""
import ctypes
import errno
import fcntl
import os
import signal
import sys
import termios
from dataclasses import dataclass, field

TRACEME, GETREGS, SETREGS, SYSCALL, SETOPTIONS = 0, 12, 13, 24, 0x4200
TELL_SYSCALLS, KILL_WITH_TRACER = 1, 0x100000
SYSCALL_STOP = signal.SIGTRAP | 0x80
READ, WRITE, READ_AT, WRITE_AT, SYNC, SYNC_DATA = 0, 1, 17, 18, 74, 75
READS, WRITES, SYNCS = (READ, READ_AT), (WRITE, WRITE_AT), (SYNC, SYNC_DATA)
# Other ways to change a file, which would go past this: vectors, lengths, ranges, copies.
UNSEEN = (20, 40, 76, 77, 277, 285, 296, 306, 326, 328)


class Registers(ctypes.Structure):
    """In the kernel's order."""
    _fields_ = [(name, ctypes.c_uint64) for name in (
        "r15 r14 r13 r12 rbp rbx r11 r10 r9 r8 rax rcx rdx rsi rdi orig_rax rip cs eflags rsp ss fs_base gs_base ds es fs gs"
    ).split()]


@dataclass
class Plan:
    """What is done to the program: killed behind a write or sync of its disk (counted from 1; 0 never), or that call
    fails, a write behind so many of its bytes and never its last; a read of the disk before the first line fails; transfers go in parts."""
    kill_at: int = 0
    fail_at: int = 0
    kept: int = 0
    fail_read_at: int = 0
    parts: object = None  # a source of chance


@dataclass
class Traced:
    """`calls` are the disk's writes (offset, length) and syncs (None); `printed` is how much had been printed when the
    program read for a line, each time."""
    status: int | None = None
    replies: bytes = b""
    errors: bytes = b""
    calls: list = field(default_factory=list)
    printed: list = field(default_factory=list)
    has_failed: bool = False


def has_bytes(pipe):
    """Whether bytes wait in it to be read."""
    count = ctypes.c_int()
    fcntl.ioctl(pipe, termios.FIONREAD, count)
    return count.value > 0


class Tracer:
    def __init__(self, pid, disk, outputs, lines, feed, plan):
        self.pid, self.disk, self.outputs = pid, os.path.realpath(disk), outputs
        self.lines, self.feed, self.plan = list(lines), feed, plan
        self.libc = ctypes.CDLL(None, use_errno=True)
        self.libc.ptrace.argtypes = [ctypes.c_long, ctypes.c_long, ctypes.c_void_p, ctypes.c_void_p]
        self.registers, self.traced = Registers(), Traced()
        self.reads, self.is_rest_failing, self.refused, self.asked = 0, False, None, None

    def ask(self, request, data=0):
        if self.libc.ptrace(request, self.pid, None, data) < 0:
            raise OSError(ctypes.get_errno(), "ptrace")

    def exchange(self, request):
        self.ask(request, ctypes.addressof(self.registers))

    def run(self):
        os.waitpid(self.pid, 0)
        self.ask(SETOPTIONS, TELL_SYSCALLS | KILL_WITH_TRACER)
        is_entry, number = True, 0
        while True:
            self.ask(SYSCALL, number)
            _, status = os.waitpid(self.pid, 0)
            if os.WIFEXITED(status) or os.WIFSIGNALED(status):
                self.traced.status = os.WEXITSTATUS(status) if os.WIFEXITED(status) else None
                return
            number = os.WSTOPSIG(status)
            if number == SYSCALL_STOP:
                number = 0
                self.exchange(GETREGS)
                self.enter() if is_entry else self.leave()
                is_entry = not is_entry
                if is_entry and self.is_at_kill():
                    os.kill(self.pid, signal.SIGKILL)
                    os.waitpid(self.pid, 0)
                    return

    def is_on_disk(self):
        try:
            return os.readlink(f"/proc/{self.pid}/fd/{ctypes.c_int32(self.registers.rdi).value}") == self.disk
        except OSError:
            return False

    def enter(self):
        """Before a system call."""
        call, self.refused, self.asked = self.registers.orig_rax, None, None
        if call == READ and self.registers.rdi == 0:
            self.feed_line()
        if call in WRITES + SYNCS + READS + UNSEEN and self.is_on_disk():
            self.enter_disk(call)
        elif call in (READ, WRITE) and self.registers.rdi <= 1:
            self.part()

    def enter_disk(self, call):
        if call in UNSEEN:
            raise RuntimeError(f"system call {call} on the disk's file")
        if call in READS:
            self.reads += 1
            if self.reads == self.plan.fail_read_at and not self.traced.printed:
                self.refuse(errno.EIO)
            else:
                self.part()
        elif self.is_rest_failing:
            self.refuse(errno.EIO)
            self.is_rest_failing = False
        else:
            self.enter_change(call)

    def enter_change(self, call):
        """A write or sync of the disk, or a part of one."""
        place = None if call in SYNCS else (self.offset(call), self.registers.rdx)
        self.traced.calls.append(place)
        if len(self.traced.calls) == self.plan.fail_at:
            kept = 0 if place is None else min(self.plan.kept, self.registers.rdx - 1)
            if kept == 0:
                self.refuse(errno.EIO)
            else:
                self.shorten(kept)
                self.is_rest_failing = True
                self.traced.has_failed = True
        elif place is not None:
            self.part()

    def offset(self, call):
        if call == WRITE_AT:
            return self.registers.r10
        with open(f"/proc/{self.pid}/fdinfo/{self.registers.rdi}") as told:
            return int(told.readline().split()[1])

    def feed_line(self):
        """One more line goes into the pipe, or its end is closed."""
        self.traced.printed.append(os.path.getsize(self.outputs[0]))
        if self.feed is not None and has_bytes(self.feed):
            return
        if self.lines:
            os.write(self.feed, self.lines.pop(0))
        elif self.feed is not None:
            os.close(self.feed)
            self.feed = None

    def part(self):
        """At times fewer bytes, or none since a signal came."""
        chance = self.plan.parts
        if chance is None or chance.random() < 0.4:
            return
        if chance.random() < 0.3:
            self.refuse(errno.EINTR)
        elif self.registers.rdx > 1:
            self.shorten(chance.choice([1, 2, self.registers.rdx - 1, chance.randrange(1, self.registers.rdx)]))

    def shorten(self, length):
        self.asked = self.registers.rdx
        self.registers.rdx = min(length, self.asked)
        self.exchange(SETREGS)

    def refuse(self, error):
        """No system call is made in its place; the program sees the error."""
        self.refused = error
        self.traced.has_failed |= error == errno.EIO
        self.registers.orig_rax = 2 ** 64 - 1
        self.exchange(SETREGS)

    def leave(self):
        """Behind a system call."""
        if self.asked is not None:
            self.registers.rdx = self.asked
        if self.refused is not None:
            self.registers.rax = 2 ** 64 - self.refused
        if self.asked is not None or self.refused is not None:
            self.exchange(SETREGS)

    def is_at_kill(self):
        return 0 < self.plan.kill_at <= len(self.traced.calls)


def begin(arguments, feed, outputs):
    """The child waits at its start for the tracer."""
    pid = os.fork()
    if pid == 0:
        try:
            os.dup2(feed, 0)
            for number, path in enumerate(outputs, 1):
                os.dup2(os.open(path, os.O_WRONLY | os.O_CREAT | os.O_TRUNC, 0o644), number)
            ctypes.CDLL(None).ptrace(TRACEME, 0, None, None)
            os.execv(arguments[0], arguments)
        finally:
            os._exit(127)
    return pid


def traced_run(ckrt, disk, lines, plan, words=None):
    """`ckrt run` on the disk's file, or the program with other words; each line has its end."""
    if sys.platform != "linux" or os.uname().machine != "x86_64":
        raise SystemExit("kinds that trace the program need Linux on x86-64")
    outputs = [disk.with_name("traced.out"), disk.with_name("traced.err")]
    for path in outputs:
        path.write_bytes(b"")
    source, feed = os.pipe()
    pid = begin([str(ckrt), *map(str, words or ["run", disk])], source, outputs)
    os.close(source)
    tracer = Tracer(pid, disk, outputs, lines, feed, plan)
    try:
        tracer.run()
    finally:
        if tracer.feed is not None:
            os.close(tracer.feed)
    traced = tracer.traced
    traced.replies, errors = (path.read_bytes() for path in outputs)
    traced.errors = b"".join(errors.splitlines(keepends=True)[-1:])
    for path in outputs:
        path.unlink()
    return traced
