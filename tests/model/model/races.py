"""The lines of `ckrt races`: pairs of places whose accesses no chain orders, as the recorded events are made again."""
from collections import Counter
from dataclasses import dataclass

from model.accesses import Access, Shadow, access_of, given_anew, is_fence_of_thread, is_of_kit
from model.clocks import Clocks
from model.listing import address_text
from model.lock_steps import LockSteps, Waits
from model.orders import Before, Orders
from model.other_rules import Watched
from model.stretches import next_word, plain_thread

PAIRS = 64  # that have lines of their own
ONE_AROUND = "a store on both sides of another one, counted once"
EARLIER = "a store behind which another one came to its word"
ELSEWHERE = "a store that is the last one of no byte accessed"
SEVERAL = "several stores at once, by rising byte"
NOT_BEFORE = "events before these were not looked at, and another schedule may have some"


@dataclass
class Pair:
    """The first two accesses that raced at two places, and how often accesses there did."""
    first: Access
    second: Access
    count: int = 1


class Races:
    """What is found by one reading of what orders."""

    def __init__(self, is_wide):
        self.is_wide = is_wide
        self.clocks, self.shadow = Clocks() if is_wide else Watched(), Shadow()
        self.orders = Orders(self.clocks, is_wide)
        self.pairs, self.others, self.met = {}, 0, Counter()
        self.stretch = 0, 0

    def note(self, access):
        """What a thread did up to an atomic store that releases, that too, is before each later atomic load of the word that acquires."""
        if access.is_atomic and not access.is_store:
            self.clocks.load(access.thread, access.word, access.is_ordering)
        self.compare(access)
        if access.is_atomic and access.is_store:
            self.clocks.store(access.thread, access.word, access.is_ordering)

    def compare(self, access):
        """With those that are kept of its word; then it is kept itself."""
        raced = [kept for kept, epoch in self.shadow.kept(access.word)
                 if kept.conflicts(access) and not self.clocks.has_seen(access.thread, kept.thread, epoch)]
        for kept in raced:
            self.count(kept, access)
        stores = [kept for kept in raced if kept.is_store]
        if stores:
            self.met.update(met_by(access, stores, self.shadow.stores_by_byte(access.word)))
        if not self.is_wide:
            self.met.update(rule for kept, epoch in self.shadow.kept(access.word) if kept.conflicts(access)
                            for rule in self.clocks.unlike(access.thread, kept.thread, epoch))
        self.shadow.keep(access, self.clocks.epoch(access.thread))

    def count(self, first, second):
        """Whichever of the two places comes first."""
        places = frozenset([first.place, second.place])
        if places in self.pairs:
            self.pairs[places].count += 1
        elif len(self.pairs) < PAIRS:
            self.pairs[places] = Pair(first, second)
        else:
            self.others += 1

    def lines(self):
        """In the order in which the pairs were found."""
        lines = [f"{text_of_pair(pair)}, {times(pair.count)}" for pair in self.pairs.values()]
        return lines + ([f"and {times(self.others)} at other places"] if self.others else []) or [text_of_none(*self.stretch)]


def met_by(access, raced, stores):
    """How often each rule about bytes made a difference, where an access raced with some of its word's last stores, given byte by byte."""
    met = Counter()
    for store in raced:
        at = [number for number, other in enumerate(stores) if other == store]
        met[EARLIER] += any(other and other.position > store.position for other in stores)
        met[ELSEWHERE] += not set(at) & set(range(access.address % 4, access.address % 4 + access.length))
        met[ONE_AROUND] += len(at) <= at[-1] - at[0]
    met[SEVERAL] += len(raced) > 1
    return met


def text_of_none(first, last):
    """Where no pair was found: which events were looked at."""
    return f"no races in events {first} to {last} of this schedule; {NOT_BEFORE if first else 'another one may have some'}"


def times(count):
    return "once" if count == 1 else f"{count} times"


def text_of_pair(pair):
    return f"{text_of_access(pair.first)}, {text_of_access(pair.second)}"


def text_of_access(access):
    event, step = access.position
    what = ("stores" if access.is_store else "loads") + (" atomically" if access.is_atomic else "")
    return f"{event}+{step} thread {access.thread} {what} {address_text(access.address)} pc {address_text(access.place)}"


class Readings:
    """Looks on, and finds the races by the narrow reading and by the wide one, and the cycles of locks. `met` counts what the rules about a kit leave
    out; by the rows of names callers are found."""

    def __init__(self, rows=()):
        self.narrow, self.wide, self.locks = Races(False), Races(True), LockSteps(rows)
        self.event, self.met = 0, Counter()

    def begin(self, machine, stretch):
        self.narrow.stretch = self.wide.stretch = stretch

    def begin_event(self, number):
        self.event = number

    def look(self, machine, hart, step, make):
        """A plain step has an access at most; any other one, and an event that is no run, may hand something on."""
        thread_id = plain_thread(machine, hart)
        if thread_id is not None:
            self.look_at_plain(machine, thread_id, (self.event, step))
            return make()
        before = Before(machine, None if hart is None else machine.harts[hart])
        waits = Waits(machine)
        made = make()
        for races in (self.narrow, self.wide):
            races.orders.hand_on(before, machine)
        self.locks.note(before, waits, machine, (self.event, step))
        return made

    def look_at_plain(self, machine, thread_id, position):
        access = access_of(machine, thread_id, position)
        if access is None:
            self.order(thread_id, next_word(machine, thread_id))
            return self.give_anew(given_anew(machine, thread_id))
        if is_of_kit(machine, access):
            self.met["an access of a kit"] += 1
            return None
        for races in (self.narrow, self.wide):
            races.note(access)
        return None

    def order(self, thread_id, word):
        """Whichever thread it is, and whoever wrote the fence."""
        if is_fence_of_thread(word):
            for races in (self.narrow, self.wide):
                races.clocks.fence(thread_id)

    def give_anew(self, words):
        """What was done to these words before is compared with nothing."""
        if words:
            self.met["a word given anew"] += self.narrow.shadow.forget(words)
            self.wide.shadow.forget(words)

    def lines(self):
        """None where the two readings differ."""
        return self.narrow.lines() if self.narrow.lines() == self.wide.lines() else None
