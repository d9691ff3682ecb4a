"""What a kit tells of its heap, by instructions that do nothing: which block each word of memory is in, and who took it and gave it back."""
from dataclasses import dataclass
from enum import Enum

from model.accesses import GIVEN_ANEW, REGISTERS
from model.stretches import next_word

NOBODYS = 0x00003033  # sltu x0: memory that is nobody's


class State(Enum):
    """What was told last of a word."""
    UNTOLD = 0
    GIVEN = 1
    GIVEN_BACK = 2
    ENDED = 3  # in a block that is nobody's any more, and wasn't given back: the stack of a thread that has ended
    NOBODYS = 4


@dataclass(frozen=True)
class Moment:
    """Where something was told, by which thread, and its callers."""
    position: tuple
    thread: int
    callers: tuple = ()


@dataclass(eq=False)
class Block:
    """The bytes that were asked for, the words that are told of, of which the first is the heap's own, and who took it."""
    begin: int
    end: int
    words: range
    taken: Moment
    is_there: bool = True

    @property
    def length(self):
        return self.end - self.begin


@dataclass(frozen=True)
class Told:
    """Of a word: the block that it is or was in, and the moment at which it was given back, or ended; None where there is none."""
    state: State
    block: Block | None = None
    moment: Moment | None = None


def note_of(machine, thread_id):
    """What the thread's next step tells: the two numbers that it compares, and whether it is of a block that is given. None where it tells nothing."""
    word, registers = next_word(machine, thread_id), machine.threads[thread_id].registers
    if word & ~REGISTERS not in (GIVEN_ANEW, NOBODYS):
        return None
    return registers[word >> 15 & 31], registers[word >> 20 & 31], word & ~REGISTERS == GIVEN_ANEW


class Heap:
    """What was told last of each word."""

    def __init__(self, is_by_word_before=False):
        """Whether a free is looked up by the word before its address, the page leaves open."""
        self.is_by_word_before = is_by_word_before
        self.words, self.blocks = {}, []

    def told(self, address):
        return self.words.get(address - address % 4, Told(State.UNTOLD))

    def give(self, first, length, taken):
        """So many bytes from the multiple of 4 at or below the first; as many of the last word as that is lower aren't asked for."""
        over, count = first % 4, length // 4
        begin = first - over
        block = Block(begin + 4, begin + 4 * count - over, range(begin, begin + 4 * count, 4), taken)
        self.blocks.append(block)
        self.words.update((word, Told(State.GIVEN, block)) for word in block.words)

    def leave(self, first, length, moment):
        """These bytes are no block's any more: those of a block that is there are so of a thread that has ended. Others stay what they were."""
        for word in range(first, first + length, 4):
            told = self.told(word)
            if told.state is State.GIVEN:
                self.words[word] = Told(State.ENDED, told.block, moment)
            elif told.state is State.UNTOLD:
                self.words[word] = Told(State.NOBODYS)

    def freed(self, address):
        """What was told last of what is given back at the address."""
        return self.told(address - 4 if self.is_by_word_before else address)

    def fault_of_free(self, address):
        """None where a block that is there begins at the address; else what is wrong with giving that back."""
        told = self.freed(address)
        if told.state is State.GIVEN_BACK:
            return "in a block that was given back"
        if told.block is None:
            return "in no block"
        if self.is_by_word_before and told.state is State.ENDED:
            return "in a stack that has ended"
        if address == told.block.begin:
            return None
        return "in a stack that has ended" if told.state is State.ENDED else "inside a block"

    def give_back(self, address, moment):
        """All words that were told of last as that block's."""
        block = self.freed(address).block
        block.is_there = False
        self.words.update((word, Told(State.GIVEN_BACK, block, moment)) for word in block.words if self.words[word].block is block)

    def fault_of_access(self, access):
        """None where it is right, or nothing was told of its word. Of a word that is loaded whole the first byte is enough."""
        told = self.told(access.address)
        if told.state is State.GIVEN:
            length = 1 if access.length == 4 and not access.is_store else access.length
            return None if told.block.begin <= access.address and access.address + length <= told.block.end else "beside a block"
        return {State.UNTOLD: None, State.NOBODYS: "in no block", State.GIVEN_BACK: "in a block that was given back",
                State.ENDED: "in a stack that has ended"}[told.state]

    def left(self):
        """The blocks that weren't given back, by rising address."""
        return sorted((block for block in self.blocks if block.is_there), key=lambda block: block.begin)
