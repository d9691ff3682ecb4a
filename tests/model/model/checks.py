"""The lines of `ckrt check`: which loads, stores and frees were of memory that no block has, and which blocks were never given back, as the
recorded events are made again."""
from dataclasses import dataclass

from model.accesses import access_of
from model.beneath import BLANKS, lines_of_callers, position_text
from model.callers import callers_of
from model.heap import Heap, Moment, State, note_of
from model.listing import address_text
from model.races import times
from model.stretches import plain_thread
from model.threads import Status

PLACES = 64  # that have lines of their own
HEAP_LOCK = 2  # the mutex of a kit's heap: of who owns it nothing is told
LEFT = 16  # blocks that are told of those that weren't given back
NOT_KNOWN = "blocks that were taken before these are not known"
LATER = {State.GIVEN_BACK: "given back", State.ENDED: "ended"}


@dataclass
class Wrong:
    """What was done at a place, the first time, and how often; the lines of the block that has the address, as it was then, and what register 1 had."""
    text: str
    moment: Moment
    block: list
    back: int
    count: int = 1

    def line(self):
        return f"{position_text(self.moment.position)} thread {self.moment.thread} {self.text}, {times(self.count)}"

    def lines(self):
        moment = self.moment
        return [self.line(), *lines_of_callers(moment.position, moment.thread, moment.callers), *self.block]


def lines_of_told(told):
    """The block of a word, with who took it, and who gave it back, or by whom it ended; each with the callers then."""
    if told.block is None:
        return []
    return [*lines_of_block(told.block), *(lines_of_moment(LATER[told.state], told.moment) if told.moment else [])]


def lines_of_block(block):
    return lines_of_moment(f"in a block of {block.length} bytes from {address_text(block.begin)} on, taken", block.taken)


def lines_of_moment(what, moment):
    return [f"{BLANKS}{what} at {position_text(moment.position)} by thread {moment.thread}",
            *lines_of_callers(moment.position, moment.thread, moment.callers)]


class Checks:
    """Looks on. `rows` are those of names, by which callers are found; none where there are no such names."""

    def __init__(self, rows=(), is_by_word_before=False, is_apart=False):
        """Whether memory that isn't the heap's is another thing to free than memory of the heap that no block has, the page leaves open: then
        it is apart."""
        self.rows, self.event, self.stretch, self.machine, self.is_apart = rows, 0, (0, 0), None, is_apart
        self.heap, self.wrongs, self.others, self.is_told = Heap(is_by_word_before), {}, 0, False

    def begin(self, machine, stretch):
        self.machine, self.stretch = machine, stretch

    def begin_event(self, number):
        self.event = number

    def look(self, machine, hart, step, make):
        thread_id = plain_thread(machine, hart)
        if thread_id is not None:
            self.look_at_plain(machine, thread_id, (self.event, step))
        return make()

    def look_at_plain(self, machine, thread_id, position):
        access, note = access_of(machine, thread_id, position), note_of(machine, thread_id)
        if access is None and note is None:
            return
        moment, back = Moment(position, thread_id, callers_of(machine, thread_id, self.rows)), machine.threads[thread_id].registers[1]
        found = self.access(access) if access else self.note(*note, moment, back)
        if found and not (HEAP_LOCK in machine.mutexes and machine.mutexes[HEAP_LOCK].owner == thread_id):
            self.tell(*found, moment, back)

    def access(self, access):
        """What is done, at which place, what is wrong with it, and what was told of its word; None where it is right."""
        fault = self.heap.fault_of_access(access)
        if fault is None:
            return None
        return f"{'stores' if access.is_store else 'loads'} {address_text(access.address)}", access.place, fault, self.heap.told(access.address)

    def note(self, first, second, is_given, moment, back):
        """The same of what is told of the heap. In a stretch that begins later a block may have been taken before."""
        if is_given:
            return self.heap.give(first, second, moment)
        self.is_told = True
        if second:
            return self.heap.leave(first, second, moment)
        fault, told = self.heap.fault_of_free(first), self.heap.freed(first)
        if fault is None:
            return self.heap.give_back(first, moment)
        is_unknown = told.state is State.UNTOLD and self.stretch[0] > 0
        return None if is_unknown else (f"frees {address_text(first)}", max(back - 4, 0), fault, told)

    def tell(self, what, place, fault, told, moment, back):
        """What is done at one place of the program, called from one place, is one line."""
        key = what.split()[0], fault, place, back, self.is_apart and told.state is State.UNTOLD
        if key in self.wrongs:
            self.wrongs[key].count += 1
        elif len(self.wrongs) < PLACES:
            self.wrongs[key] = Wrong(f"{what} pc {address_text(place)} {fault}", moment, lines_of_told(told), back)
        else:
            self.others += 1

    def errors(self):
        """None where the events don't tell which memory is no block's."""
        return self.wrongs if self.is_told else {}

    def lines(self):
        """The errors in the order in which they were found, and then what wasn't given back."""
        if not self.is_told:
            return ["events {} to {} don't tell which memory is no block's: no call of free, or an image of an older kit".format(*self.stretch)]
        lines = [line for wrong in self.wrongs.values() for line in wrong.lines()]
        lines += [f"and {times(self.others)} at other places"] if self.others else []
        return (lines or [text_of_none(*self.stretch)]) + self.lines_of_left()

    def lines_of_left(self):
        left = self.heap.left()
        if self.machine.status is Status.RUNNING or not left:
            return []
        return [f"never given back: {len(left)} blocks, bytes: {sum(block.length for block in left)}",
                *(line for block in left[:LEFT] for line in lines_of_block(block))]


def text_of_none(first, last):
    """Where nothing was wrong: which events were looked at."""
    return f"no errors of memory in events {first} to {last} of this schedule; {NOT_KNOWN if first else 'another one may have some'}"
