"""What stands beneath each race of `ckrt races`: which locks the two threads hold as they make its accesses, who called, and which memory that was
given anew has both. The run is made once more for it."""
from copy import copy
from dataclasses import dataclass

from model.accesses import given_anew
from model.callers import callers_of
from model.listing import address_text
from model.races import text_of_pair, times
from model.stretches import plain_thread

BLANKS = "    "
OWN_NAMES = 4096  # below it are the names of a kit's own locks, which are left out


@dataclass(frozen=True)
class Block:
    """Memory that was given anew, where and by whom; its first word is the heap's own."""
    position: tuple
    thread: int
    words: range  # by their addresses
    callers: tuple = ()


def locks_of(machine, thread_id):
    """What the thread holds: mutexes, and behind them read-write locks, each by rising address."""
    mutexes = [f"mutex {address_text(at)}" for at, mutex in sorted(machine.mutexes.items()) if at >= OWN_NAMES and mutex.owner == thread_id]
    for at, lock in sorted(machine.locks.items()):
        how = "write" if lock.writer == thread_id else "read" if thread_id in lock.readers else None
        mutexes += [f"rwlock {address_text(at)} to {how}"] if how and at >= OWN_NAMES else []
    return mutexes or ["no lock"]


class Beneath:
    """Looks on, and notes locks and callers at some positions, and all memory that is given anew. `rows` are those of names, by which callers are
    found; none where there are no such names."""

    def __init__(self, pairs, rows=(), is_wide=False):
        """Whether the first word is in a block, too, the page leaves open: in the wide reading it is, and isn't counted either."""
        self.is_wide = is_wide
        self.wanted = {access.position for pair in pairs for access in (pair.first, pair.second)}
        self.rows, self.event = rows, 0
        self.held, self.callers, self.blocks = {}, {}, []

    def begin_event(self, number):
        self.event = number

    def look(self, machine, hart, step, make):
        thread_id, position = plain_thread(machine, hart), (self.event, step)
        if thread_id is not None:
            if position in self.wanted:
                self.held[position] = locks_of(machine, thread_id)
                self.callers[position] = callers_of(machine, thread_id, self.rows)
            words = given_anew(machine, thread_id)
            if words:
                self.blocks.append(Block(position, thread_id, words, callers_of(machine, thread_id, self.rows)))
        return make()

    def block_of(self, pair):
        """The last one before the second access that has the word of both; None where there is none."""
        begin = 0 if self.is_wide else 1
        there = [block for block in self.blocks if block.position < pair.second.position and pair.second.word in block.words[begin:]]
        return there[-1] if there else None

    def lines(self, pair):
        accesses = [line for access in (pair.first, pair.second) for line in self.lines_of_access(access)]
        block = self.block_of(pair)
        if block is None:
            return accesses
        taken = f"{position_text(block.position)} by thread {block.thread}"
        told = f"in a block of {4 * len(block.words) - 4} bytes from {address_text(block.words[0] + 4)} on, taken at {taken}"
        return [*accesses, BLANKS + told, *lines_of_callers(block.position, block.thread, block.callers)]

    def lines_of_access(self, access):
        begin = f"{BLANKS}{position_text(access.position)} thread {access.thread}"
        return [*(f"{begin} holds {lock}" for lock in self.held[access.position]),
                *lines_of_callers(access.position, access.thread, self.callers[access.position])]


def position_text(position):
    event, step = position
    return f"{event}+{step}"


def lines_of_callers(position, thread, callers):
    return [f"{BLANKS}{position_text(position)} thread {thread} called from {address_text(caller)}" for caller in callers]


def lines_told(recording, readings, stretch=(None, None), rows=()):
    """All that is told of the races of a stretch, whose pairs no page leaves open: by the narrow reading of blocks, and by the wide one."""
    pairs, lines = list(readings.narrow.pairs.values()), readings.lines()
    if not pairs:
        return lines, lines
    narrow = recording.show(Beneath(pairs, rows), *stretch)
    wide = copy(narrow)
    wide.is_wide = True
    return tuple([line for pair in pairs for line in (f"{text_of_pair(pair)}, {times(pair.count)}", *beneath.lines(pair))] + lines[len(pairs):]
                 for beneath in (narrow, wide))
