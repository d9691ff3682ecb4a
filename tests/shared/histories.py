"""What tests of histories share: looks and packets, what the bytes of one tell, files without room, and what a stop may leave (docs/HISTORIES.md)."""
import re
import resource
import signal
import subprocess
from dataclasses import dataclass

from shared import disks, reading

SECONDS = 60  # of one command, at most
FRONT, FIELDS, NAME, VERSION, FREE = 4_096, slice(20, 72), slice(8, 16), slice(16, 20), 72
MAGIC = b"CKRTHIST"
LOOKS = [["calls"], ["races"], ["check"], ["timeline"], ["timeline", "--json"], ["profile"], ["profile", "--folded"], ["profile", "--callgrind"]]


def say(ckrt, *words, given=b"", folder=None, **how):
    """Status, what was printed, and the last line of what was reported."""
    done = subprocess.run([ckrt, *map(str, words)], input=given, cwd=folder, capture_output=True, check=False, timeout=SECONDS, **how)
    return done.returncode, done.stdout, (done.stderr.decode(errors="replace").splitlines() or [""])[-1]


def frame(payload):
    return f"${payload}#{sum(payload.encode()) % 256:02x}".encode()


def monitor(command):
    return f"qRcmd,{command.encode().hex()}"


def answers_in(said):
    """The payloads that a session of `ckrt debug` answered, with what is told on the console as text."""
    payloads = [payload.decode() for payload in re.findall(rb"\$([^#]*)#", said)]
    return [bytes.fromhex(it[1:]).decode() if re.fullmatch(r"O([0-9a-f]{2})+", it) else it for it in payloads]


def packets(pc, last):
    """What a session is asked: threads, registers, memory, motions both ways, with a breakpoint, a watch and a limit, and another way on."""
    third, half = last // 3, last // 2
    looks = ["?", "qfThreadInfo", "qsThreadInfo", "g", "m1000,40", "Hg2", "g", "qThreadExtraInfo,2"]
    return ["QStartNoAckMode", "?", monitor("events"), monitor(f"goto {third}"), *looks, monitor("inspect"), monitor(f"goto {half}+1"), "vCont;s:1", "bs", "bs", *looks,
            f"Z0,{pc:x},4", "bc", "g", "vCont;c", "vCont;c", "g", f"z0,{pc:x},4", "Z2,3000,10", "vCont;c", "g", "z2,3000,10", monitor(f"until {third}"), "bc", *looks,
            monitor("limit 1000"), "vCont;c", "bc", monitor("limit 4000000000"), monitor("goto end"), *looks, monitor("inspect"), "vCont;c", "bs", "g",
            monitor(f"goto {last + 1}"), monitor(f"goto {half}"), monitor("fork"), monitor("event tick 5"), monitor("live 20"), monitor("events"), monitor("inspect"), "bc", "D"]


def is_history(data):
    """By its first gate and its name."""
    return data[:1] == bytes([disks.OPEN]) and data[NAME] == MAGIC


def is_free(data):
    """Whether a history is begun in a file of these bytes (docs/HISTORIES.md, How it is written)."""
    is_begun = len(data) >= FREE and data[0] != disks.OPEN and data[NAME] == MAGIC and data[VERSION] == b"\1\0\0\0"
    return (len(data) <= FREE and not any(data)) or is_begun


def fault_of(data):
    """The fault that the reader finds in the bytes of a history, or what `ckrt history` has to print of them."""
    if not reading.read_disk.is_history(data):
        return "NotAHistory"
    try:
        first, lines, length = reading.history(data)
    except reading.read_disk.Fault as fault:
        return re.match(r"\w+", str(fault))[0]
    return f"events {first} to {first + len(lines)}\nbytes {length}\n"


def with_room_for(length):
    """No file may have more bytes: a write fails then, as where a file system is full."""
    def limit():
        signal.signal(signal.SIGXFSZ, signal.SIG_IGN)
        resource.setrlimit(resource.RLIMIT_FSIZE, (length, length))
    return limit


@dataclass
class Stop:
    """What a command has done to a file by one of its calls: the bytes that are there, those that were there at the last sync, and the
    ranges that were written since."""

    there: bytes
    synced: bytes
    pending: list

    def filled(self, fill):
        """What it may leave: in each range that isn't synced so many bytes of a fill. All of it is as long as it is now."""
        data = bytearray(self.there)
        for at, length in self.pending:
            data[at:at + length] = fill(at, length)
        return bytes(data)

    def leaves(self, chance):
        """As written, as it was at the last sync, open gates, closed ones, and drawn bytes."""
        fills = [lambda at, length: b"\xa5" * length, lambda at, length: bytes(length), lambda at, length: chance.randbytes(length)]
        return [self.there, self.synced, *map(self.filled, fills)]
