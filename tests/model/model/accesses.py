"""What a step loads or stores, whether that is atomic and orders something, and which accesses of each word are kept to be compared with later
ones; which words are fences of a thread; what a kit accesses for itself, and where it tells that memory is given anew."""
from dataclasses import dataclass

from model.abi import ALL_ONES
from model.processor import sign_extended
from model.stretches import next_word

LOAD, STORE = 0b0000011, 0b0100011
WIDTHS = {LOAD: (0, 1, 2, 4, 5), STORE: (0, 1, 2)}  # by opcode, each funct3
FENCES_BEFORE_STORE = {0x0310000F: True, 0x0110000F: False}  # fence rw,w and fence w,w: whether the store releases
FENCES_BEHIND_LOAD = {0x0230000F: True, 0x0220000F: False}  # fence r,rw and fence r,r: whether the load acquires
FENCE, READS_AND_WRITES = 0x0000000F, 0b0011  # the instruction by its opcode and funct3, and the bits of what it puts in an order
OWN_LOCKS = 1, 2, 3, 4  # a kit's mutexes under which nothing of a program is accessed
GIVEN_ANEW, REGISTERS = 0x00002033, 31 << 15 | 31 << 20  # slt x0, and the bits of the word that say which registers it compares


@dataclass(frozen=True)
class Access:
    """`place` is its pc; the position is the number of the event, and that of the step."""
    position: tuple
    thread: int
    is_store: bool
    address: int
    length: int
    place: int
    is_atomic: bool
    is_ordering: bool = False  # whether it is an atomic store that releases, or an atomic load that acquires

    @property
    def word(self):
        return self.address - self.address % 4

    def conflicts(self, other):
        """Whether two threads access a common byte, one to store, and not both by atomic operations."""
        meet = self.address < other.address + other.length and other.address < self.address + self.length
        return meet and self.thread != other.thread and (self.is_store or other.is_store) and not (self.is_atomic and other.is_atomic)


def is_fence_of_thread(word):
    """Whatever else it puts in an order: a fence with r and w both before and after."""
    before, after = word >> 24 & READS_AND_WRITES, word >> 20 & READS_AND_WRITES
    return word & 0x707F == FENCE and before == after == READS_AND_WRITES


def order_of(memory, thread, is_store):
    """Whether the access of a thread's next step orders something by its fence; None where it is plain."""
    place, fences = (thread.pc - 4, FENCES_BEFORE_STORE) if is_store else (thread.pc + 4, FENCES_BEHIND_LOAD)
    return fences.get(memory.load(place, 4)) if memory.is_valid(place, 4) else None


def access_of(machine, thread_id, position):
    """That of the thread's next step; None where it has none, or faults."""
    word, thread, memory = next_word(machine, thread_id), machine.threads[thread_id], machine.memory
    if word is None or word >> 12 & 7 not in WIDTHS.get(word & 127, ()):
        return None
    is_store = word & 127 == STORE
    offset = word >> 25 << 5 | word >> 7 & 31 if is_store else word >> 20
    address = thread.registers[word >> 15 & 31] + sign_extended(offset, 12) & ALL_ONES
    length = 1 << (word >> 12 & 3)
    if address % length or not memory.is_valid(address, length):
        return None
    order = order_of(memory, thread, is_store)
    return Access(position, thread_id, is_store, address, length, thread.pc, order is not None, order is True)


def is_of_kit(machine, access):
    """Whether it is a plain one of a thread that owns one of a kit's mutexes: then it is told nowhere."""
    owners = [machine.mutexes[name].owner for name in OWN_LOCKS if name in machine.mutexes]
    return not access.is_atomic and access.thread in owners


def given_anew(machine, thread_id):
    """The addresses of the words that the thread's next step tells to be given anew; None where it is no such step."""
    word, registers = next_word(machine, thread_id), machine.threads[thread_id].registers
    if word & ~REGISTERS != GIVEN_ANEW:
        return None
    first, count = registers[word >> 15 & 31] // 4, registers[word >> 20 & 31] // 4
    return range(4 * first, 4 * (first + count), 4)


class Shadow:
    """Of each word the last store to each of its bytes, and the last loads of the two threads that loaded it last, the later one first;
    each with the epoch of its thread."""

    def __init__(self):
        self.stores, self.loads = {}, {}  # by the word; of the stores one for each byte, None where it has none

    def kept(self, word):
        """The stores by rising byte, each where its first byte is; then the loads."""
        stores = dict.fromkeys(store for store in self.stores.get(word, []) if store)
        return [*stores, *self.loads.get(word, [])]

    def stores_by_byte(self, word):
        return [store and store[0] for store in self.stores.get(word, [])]

    def keep(self, access, epoch):
        if access.is_store:
            stores, first = self.stores.setdefault(access.word, [None] * 4), access.address % 4
            stores[first:first + access.length] = [(access, epoch)] * access.length
        else:
            others = [kept for kept in self.loads.get(access.word, []) if kept[0].thread != access.thread]
            self.loads[access.word] = [(access, epoch), *others][:2]

    def forget(self, words):
        """Returns how many words of these had an access."""
        found = {word for word in [*self.stores, *self.loads] if word in words}
        for word in found:
            self.stores.pop(word, None)
            self.loads.pop(word, None)
        return len(found)
