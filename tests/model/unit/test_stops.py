"""Random lives with commits and checkpoints, stopped at random calls: what recovers is the plain fold of a prefix."""
import unittest
from random import Random

from cases.kinds import guest_case
from cases.saved_disks import torn, with_checkpoints
from model.devices import MemoryDisk, StoppingDisk
from model.layout import format_disk
from model.lines import LineFault, parse, run_command
from model.machine import Machine
from model.recovery import recover
from model.session import Session
from model.tables import encode_tables


class Recording(Session):
    """Notes the events that it took, and all the bytes that they put."""

    def __init__(self, disk):
        self.taken, self.put = [], bytearray()
        super().__init__(disk)

    def submit(self, event):
        length = self.output_length
        is_taken, reply = super().submit(event)
        if is_taken:
            self.taken.append(event)
            self.put += self.held[len(self.held) - (self.output_length - length):]
        return is_taken, reply


def whole_state(machine):
    return encode_tables(machine, b""), bytes(machine.memory.bytes)


def folded(case, events):
    """The plain fold: no disk, no journal."""
    machine, put = Machine(case.geometry.pages, case.geometry.harts, case.image.ljust(case.geometry.image_limit, b"\0")), bytearray()
    for event in events:
        put += machine.step(event)[1]
    return machine, put


def run_until_failure(session, lines):
    """The number of acknowledged events."""
    acknowledged = session.events
    for line in lines:
        try:
            replies = run_command(session, parse(line))
        except LineFault:
            continue
        acknowledged = max([acknowledged] + [int(reply[4:]) for reply in replies if reply.startswith("ack ")])
    return acknowledged


class Stops(unittest.TestCase):
    def life(self, case, chance, contents, lines, taken, calls):
        """One life over a disk that stops; answers what it leaves, and the events that recover from it."""
        disk = StoppingDisk(contents, chance.randrange(2, calls + 1), torn(chance))
        session = Recording(disk)
        session.taken = list(taken)
        acknowledged = run_until_failure(session, lines)
        found = recover(MemoryDisk(bytearray(disk.bytes)))
        self.assertIn(found.events, range(acknowledged, len(session.taken) + 1))
        machine, put = folded(case, session.taken[:found.events])
        self.assertTrue(whole_state(found.machine) == whole_state(machine))
        self.assertEqual((found.output_length, bytes(found.held)), (len(put), bytes(put[len(put) - len(found.held):])))
        self.assertLessEqual(found.output_length - len(found.held), session.confirmed)
        return disk.bytes, session.taken[:found.events]

    def test_random_lives(self):
        for seed in range(24):
            with self.subTest(seed):
                chance = Random(f"stops {seed}")
                case = guest_case(chance, seed)
                lines = with_checkpoints(chance, case.lives[0].splitlines(), chance.choice([0.05, 0.2]))
                contents, taken = bytes(format_disk(case.geometry, case.image)), []
                for _ in range(3):
                    contents, taken = self.life(case, chance, contents, lines, taken, chance.choice([30, 300]))
                    lines = lines[min(len(lines), 4):]
