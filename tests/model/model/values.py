"""The lines of `ckrt check` after those of errors: where a branch, an address or a call hangs on a value that was never stored, as the recorded
events are made again."""
from dataclasses import dataclass

from model.abi import ALL_ONES, PAGE
from model.accesses import LOAD, STORE, WIDTHS, access_of, given_anew
from model.beneath import lines_of_callers, position_text
from model.bits import EQUAL, ORDERED, SHIFTS, Value, decide_branch, unknown_after, unknown_after_store, unknown_of_load
from model.callers import callers_of, word_at
from model.calls import row_of
from model.checks import HEAP_LOCK, PLACES, lines_of_moment
from model.heap import Moment, note_of
from model.listing import address_text
from model.processor import ARITHMETIC, ECALL, Instruction
from model.races import times
from model.stretches import next_word

UPPER = 0x37, 0x17  # by opcode: lui and auipc
BRANCH, JUMP_TO_REGISTER, WITH_CONSTANT, OF_REGISTERS = 0x63, 0x67, 0x13, 0x33
LINKS = 0x6F, 0x67
STACK_POINTER, LINK, FIRST_ARGUMENT, NUMBER = 2, 1, 10, 17
OF_CALLS = 1, 10, 11  # the registers that a call or a gate makes known
KNOWN = 0, None
SIGNED = 0, 1  # of loads, by funct3


@dataclass(frozen=True, eq=False)
class Memory:
    """What was given: a block or a frame, and when."""
    what: str
    moment: Moment


@dataclass
class Giving:
    """A block into which its function may still be putting zeros: up to a stack pointer above that one, of a thread of that number."""
    thread: int
    stack_pointer: int
    words: range
    memory: Memory


@dataclass
class Use:
    """What hangs on such a value at a place, the first time, and how often."""
    text: str
    moment: Moment
    memory: Memory
    count: int = 1

    def lines(self):
        moment = self.moment
        return [f"{position_text(moment.position)} thread {moment.thread} {self.text} by a value that was never stored, {times(self.count)}",
                *lines_of_callers(moment.position, moment.thread, moment.callers), *lines_of_moment(self.memory.what, self.memory.moment)]


def use_of(instruction, left, right):
    """What hangs on unknown bits in a step, and on which memory; None where nothing does."""
    opcode, funct3 = instruction.word & 127, instruction.funct3
    if opcode == BRANCH:
        is_decided = funct3 in (*EQUAL, *ORDERED) and decide_branch(funct3, left, right)
        return ("branches", left.memory or right.memory) if is_decided else None
    is_jump = opcode == JUMP_TO_REGISTER and funct3 == 0
    what = "jumps" if is_jump else {LOAD: "loads", STORE: "stores"}.get(opcode) if funct3 in WIDTHS.get(opcode, ()) else None
    return (what, left.memory) if what and left.unknown else None


def is_stack_pointer_computed(word):
    """By an operation, with itself as the first operand."""
    return word & 127 in (WITH_CONSTANT, OF_REGISTERS) and word >> 7 & 31 == STACK_POINTER == word >> 15 & 31


def is_after_upper(memory, pc):
    """Whether the word before is a lui or auipc to the stack pointer."""
    before = word_at(memory, pc - 4)
    return before is not None and before & 127 in UPPER and before >> 7 & 31 == STACK_POINTER


class Values:
    """Looks on. `rows` are those of names, by which callers are found. What isn't in `words` or `registers` is known."""

    def __init__(self, rows=()):
        self.rows, self.event = rows, 0
        self.words, self.registers = {}, {}  # by the address, and by the thread: unknown bits, and the memory that these hang on
        self.giving, self.uses, self.others = None, {}, 0

    def begin_event(self, number):
        self.event = number

    def look(self, machine, hart, step, make):
        if hart is None:
            return make()
        thread_id, position = machine.harts[hart], (self.event, step)
        word = next_word(machine, thread_id)
        if self.giving and self.giving.thread == thread_id and machine.threads[thread_id].registers[STACK_POINTER] > self.giving.stack_pointer:
            self.giving = None
        if word in (None, ECALL):
            return self.look_at_other(machine, thread_id, word, position, make)
        return self.look_at_plain(machine, thread_id, word, position, make)

    def look_at_other(self, machine, thread_id, word, position, make):
        """A call, a step through a gate, or one that acts on a request."""
        if word == ECALL:
            row = row_of(machine, machine.threads[thread_id].registers[NUMBER])
            arguments = [self.value(machine, thread_id, FIRST_ARGUMENT + number) for number in range(row.arguments if row else 0)]
            memory = next((value.memory for value in arguments if value.unknown), None)
            self.tell(machine, thread_id, "calls", memory, position)
        made = make()
        for register in OF_CALLS:
            self.set_register(thread_id, register, KNOWN)
        self.forget_ended(machine)
        return made

    def forget_ended(self, machine):
        """A thread that takes the number of one that has ended has registers of its own."""
        self.registers = {number: registers for number, registers in self.registers.items() if number in machine.threads}

    def look_at_plain(self, machine, thread_id, word, position, make):
        thread = machine.threads[thread_id]
        instruction = Instruction(word, thread.pc, thread.registers[word >> 15 & 31], thread.registers[word >> 20 & 31])
        left, right = (self.value(machine, thread_id, word >> place & 31) for place in (15, 20))
        use = use_of(instruction, left, right)
        if use:
            self.tell(machine, thread_id, *use, position)
        self.follow(machine, thread_id, instruction, left, right, position)
        self.note_given(machine, thread_id, position)
        self.note_nobodys(machine, thread_id)
        return self.with_frame(machine, thread_id, word, position, make)

    def value(self, machine, thread_id, register):
        return Value(machine.threads[thread_id].registers[register], *self.registers.get(thread_id, {}).get(register, KNOWN))

    def set_register(self, thread_id, register, known):
        if register:
            self.registers.setdefault(thread_id, {})[register] = known

    def tell(self, machine, thread_id, what, memory, position):
        """Steps that do the same at one pc with the same register 1 are one line; of who owns the heap's lock nothing is told."""
        thread = machine.threads[thread_id]
        if memory is None or HEAP_LOCK in machine.mutexes and machine.mutexes[HEAP_LOCK].owner == thread_id:
            return
        key = what, thread.pc, thread.registers[LINK]
        if key in self.uses:
            self.uses[key].count += 1
        elif len(self.uses) < PLACES:
            self.uses[key] = Use(f"{what} pc {address_text(thread.pc)}", self.moment(machine, thread_id, position), memory)
        else:
            self.others += 1

    def moment(self, machine, thread_id, position):
        return Moment(position, thread_id, callers_of(machine, thread_id, self.rows))

    def follow(self, machine, thread_id, instruction, left, right, position):
        """What is unknown after a step, but for a frame."""
        opcode, destination = instruction.word & 127, instruction.word >> 7 & 31
        if opcode == STORE:
            self.store(thread_id, access_of(machine, thread_id, position), right)
        elif opcode == LOAD:
            self.set_register(thread_id, destination, self.loaded(access_of(machine, thread_id, position), instruction.funct3))
        elif opcode in (WITH_CONSTANT, OF_REGISTERS):
            self.set_register(thread_id, destination, result_of(instruction, left, right if opcode == OF_REGISTERS else None))
        elif opcode in (*UPPER, *LINKS):
            self.set_register(thread_id, destination, KNOWN)

    def loaded(self, access, funct3):
        """All is known where the step faults."""
        if access is None:
            return KNOWN
        unknown, memory = self.words.get(access.word, KNOWN)
        found = unknown_of_load(unknown, access.address, access.length, funct3 in SIGNED)
        return (found, memory) if found else KNOWN

    def store(self, thread_id, access, value):
        """Of a block that is being given the whole word is unknown then. A word's memory is what is stored, if that has unknown bits."""
        if access is None:
            return
        if self.giving and self.giving.thread == thread_id and access.word in self.giving.words:
            self.words[access.word] = ALL_ONES, self.giving.memory
            return
        stored, memory = value.unknown & (1 << 8 * access.length) - 1, value.memory
        before, was = self.words.get(access.word, KNOWN)
        self.words[access.word] = unknown_after_store(before, access.address, access.length, stored), memory if stored else was

    def note_given(self, machine, thread_id, position):
        """A block that is given ends the giving of the one before it, whoever gave that."""
        words = given_anew(machine, thread_id)
        if words is not None:
            memory = Memory("in a block that was taken", self.moment(machine, thread_id, position))
            self.giving = Giving(thread_id, machine.threads[thread_id].registers[STACK_POINTER], words, memory)

    def note_nobodys(self, machine, thread_id):
        """What the function of a block that is being given tells to be nobody's is unknown then, and that block's."""
        first, length, is_given = note_of(machine, thread_id) or (0, 0, True)
        if not is_given and self.giving and self.giving.thread == thread_id:
            self.make_unknown(machine, first // 4, length // 4, self.giving.memory)

    def make_unknown(self, machine, first, count, memory):
        """So many words from that one on, where there is memory."""
        begin, end = max(4 * first, PAGE), min(4 * (first + count), machine.memory.end)
        self.words.update((at, (ALL_ONES, memory)) for at in range(begin, end, 4))

    def with_frame(self, machine, thread_id, word, position, make):
        """Makes the step. Where it lowers the stack pointer, a quarter as many words as that gets less are a frame's, from its own word on."""
        if not is_stack_pointer_computed(word) or is_after_upper(machine.memory, machine.threads[thread_id].pc):
            return make()
        registers, memory = machine.threads[thread_id].registers, Memory("in a frame that was made", self.moment(machine, thread_id, position))
        old, made = registers[STACK_POINTER], make()
        first, count = registers[STACK_POINTER] // 4, (old - registers[STACK_POINTER]) // 4
        self.make_unknown(machine, first, count, memory)
        return made

    def lines(self):
        """In the order in which they were found; none where there are none."""
        lines = [line for use in self.uses.values() for line in use.lines()]
        return lines + ([f"and {times(self.others)} at other places"] if self.others else [])


def result_of(instruction, left, right):
    """What is unknown in the result of an operation, and its memory: that of the first operand with unknown bits. Without a second one that is a
    constant."""
    funct3, has_number_in_word = instruction.funct3, right is None
    if has_number_in_word:
        right = Value(instruction.shift_amount if funct3 in SHIFTS else instruction.immediate() & ALL_ONES)
    funct7 = instruction.funct7 if funct3 in SHIFTS or not has_number_in_word else 0
    if (funct7, funct3) not in ARITHMETIC:
        return KNOWN
    unknown = unknown_after(funct7, funct3, left, right)
    return (unknown, left.memory if left.unknown else right.memory) if unknown else KNOWN
