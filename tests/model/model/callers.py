"""From an address to its caller: the rows `up` of a file of names, and the calls by which a thread came where it stands."""
from dataclasses import dataclass

MOST = 16  # callers that are told


@dataclass(frozen=True)
class Up:
    """For any instruction of its stretch that is the next one to be done: the canonical frame address by a register and an offset; where the
    return address and the caller's register 8 are, in bytes below that, or None where they are in registers 1 and 8."""
    begin: int
    length: int
    register: int
    offset: int
    back: int | None
    frame: int | None

    def text(self):
        back, frame = ("x1" if self.back is None else self.back), ("x8" if self.frame is None else self.frame)
        return f"up {self.begin:08x} {self.length:08x} {self.register} {self.offset} {back} {frame}"


def text_of_names(digest, length, rows):
    """A file of names of version 2 with such rows alone."""
    return "".join(line + "\n" for line in [f"ckrt-names 2 {digest.hex()} {length:08x}", *(row.text() for row in rows)])


def word_at(memory, address):
    """None where there is none."""
    address &= 0xFFFFFFFF
    return memory.load(address, 4) if address % 4 == 0 and memory.is_valid(address, 4) else None


def callers_of(machine, thread_id, rows):
    """Where the calls stand that led to the thread's next instruction, the innermost first."""
    thread = machine.threads[thread_id]
    return callers_from(machine.memory, thread.pc, thread.registers, rows)


def callers_from(memory, at, registers, rows):
    """Until no row is, or no memory. What a caller had in register 1 isn't known."""
    found, registers = [], {number: registers[number] for number in (1, 2, 8)}
    while len(found) < MOST:
        row = next((row for row in rows if row.begin <= at < row.begin + row.length), None)
        if row is None:
            break
        frame_address = registers[row.register] + row.offset & 0xFFFFFFFF
        back = registers[1] if row.back is None else word_at(memory, frame_address - row.back)
        frame = registers[8] if row.frame is None else word_at(memory, frame_address - row.frame)
        if back is None or frame is None or back % 4 or not memory.is_valid(back - 4 & 0xFFFFFFFF, 4):
            break
        at, registers = back - 4, {1: None, 2: frame_address, 8: frame}
        found.append(at)
    return tuple(found)
