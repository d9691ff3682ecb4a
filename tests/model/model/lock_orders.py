"""In which orders threads took locks, and cycles of these orders, by which threads may come to a deadlock."""
from dataclasses import dataclass, field

HELD = 16  # places for the locks that a thread holds
ORDERS = 2048  # places for orders
LONGEST = 8  # threads of a cycle
CYCLES = 64  # that have lines of their own


@dataclass(frozen=True)
class Lock:
    """As it is taken: `how` is `mutex`, `write` or `read`."""
    how: str
    address: int

    @property
    def name(self):
        """Which lock it is, however it is taken."""
        return self.how == "mutex", self.address

    def clashes(self, other):
        """Whether two threads can't both have it so."""
        return self.name == other.name and not self.how == other.how == "read"


@dataclass(frozen=True)
class Taking:
    """A lock that a thread has got, the position at which it got it, and its place: the pc of the call, and that of the call before it."""
    lock: Lock
    position: tuple
    place: tuple
    callers: tuple = ()


@dataclass
class Order:
    """What a thread took, and the takings of what it held then, by their places; None where nothing is, or no more."""
    thread: int
    taking: Taking
    held: list

    def key(self):
        """Orders with one key are one."""
        return self.thread, self.taking.lock, tuple(one and one.lock for one in self.held)

    def locks(self):
        return [one.lock for one in self.held if one]

    def awaits(self, other):
        return any(self.taking.lock.clashes(lock) for lock in other.locks())

    def is_apart(self, other):
        """Of another thread, and under no lock that keeps the two from waiting at once."""
        return self.thread != other.thread and not any(lock.clashes(one) for lock in self.locks() for one in other.locks())


@dataclass
class Cycle:
    """The orders of the first one at its places; for each what it had that the one before it in the cycle took; and how many orders closed one there."""
    orders: list
    awaited: list
    count: int = 1


def awaited_in(orders):
    """Of several the one of the last place."""
    return [[one for one in order.held if one and before.taking.lock.clashes(one.lock)][-1] for before, order in zip([orders[-1], *orders], orders)]


@dataclass
class LockOrders:
    """What is known of locks, step by step. `is_used_up` tells whether the room was: nothing is noted from there on."""
    held: dict = field(default_factory=dict)  # by thread a list of takings by their places
    orders: list = field(default_factory=list)
    known: set = field(default_factory=set)  # the keys of the orders
    holding: dict = field(default_factory=dict)  # by the name of a lock the places of the orders whose threads held it
    free: set = field(default_factory=set)  # the places of orders whose threads hold nothing of it any more
    cycles: dict = field(default_factory=dict)
    others: int = 0
    is_used_up: bool = False

    def places_of(self, thread_id):
        return self.held.setdefault(thread_id, [None] * HELD)

    def holds(self, thread_id, name):
        return any(one and one.lock.name == name for one in self.places_of(thread_id))

    def begin_thread(self, thread_id):
        """One that is created holds nothing, whoever had its number before."""
        if not self.is_used_up:
            self.held.pop(thread_id, None)

    def get(self, thread_id, taking, is_order):
        """What a thread holds already it doesn't get."""
        places = self.places_of(thread_id)
        if self.is_used_up or self.holds(thread_id, taking.lock.name):
            return
        if is_order and any(places):
            self.note(Order(thread_id, taking, list(places)))
        free = [place for place, one in enumerate(places) if one is None]
        if not free:
            self.is_used_up = True
        if not self.is_used_up:
            places[free[-1]] = taking

    def give_up(self, thread_id, name):
        if not self.is_used_up:
            self.held[thread_id] = [None if one and one.lock.name == name else one for one in self.places_of(thread_id)]

    def forget(self, name):
        """It is another lock from now on."""
        for place, order in enumerate([] if self.is_used_up else self.orders):
            is_gone = order.taking.lock.name == name
            if is_gone or place in self.holding.get(name, ()):
                self.replace(place, Order(order.thread, order.taking, [None if is_gone or one and one.lock.name == name else one for one in order.held]))

    def replace(self, place, order):
        """Another order at a place, or the first one there."""
        if place < len(self.orders):
            for lock in self.orders[place].locks():
                self.holding[lock.name].discard(place)
            self.known.discard(self.orders[place].key())
        self.orders[place:place + 1] = [order]
        for lock in order.locks():
            self.holding.setdefault(lock.name, set()).add(place)
        self.known.add(order.key())
        (self.free.discard if order.locks() else self.free.add)(place)

    def note(self, order):
        """At the last place whose order has nothing left, or behind all others; then a cycle is looked for."""
        if order.key() in self.known:
            return
        if not self.free and len(self.orders) == ORDERS:
            self.is_used_up = True
            return
        self.replace(max(self.free, default=len(self.orders)), order)
        found = self.cycle_of(order)
        if found:
            self.count(found)

    def cycle_of(self, new):
        """The first one that a search finds, breadth first; each path ends with an order of its own."""
        paths, last_ones = [[new]], {id(new)}
        for path in paths:
            for place in sorted(self.holding.get(path[-1].taking.lock.name, ())) if len(path) < LONGEST else []:
                order = self.orders[place]
                if id(order) in last_ones or not path[-1].awaits(order) or not all(order.is_apart(one) for one in path):
                    continue
                if order.awaits(new):
                    return [*path, order]
                last_ones.add(id(order))
                paths.append([*path, order])
        return None

    def count(self, orders):
        """Cycles of as many threads at the same places are one."""
        places = len(orders), frozenset(order.taking.place for order in orders)
        if places in self.cycles:
            self.cycles[places].count += 1
        elif len(self.cycles) < CYCLES:
            self.cycles[places] = Cycle(orders, awaited_in(orders))
        else:
            self.others += 1
