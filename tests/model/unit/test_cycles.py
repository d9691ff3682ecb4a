"""Cycles of locks: which steps take and give up, by small guests; which orders are kept; the text; and the search beside all rows of orders."""
import unittest
from itertools import permutations
from random import Random

from cases.kinds import case_of
from model.abi import Call
from model.assembler import STOP, Label, length_of, load_number
from model.callers import Up
from model.cycle_texts import all_told, cycle_text, lines_of_cycles
from model.lock_orders import CYCLES, HELD, LONGEST, ORDERS, Lock, LockOrders, Order, Taking
from model.races import Readings
from model.stretches import Recording
from unit.test_races import WithKeys, call, recording_of

A, B, C, GATE = 0x2000, 0x2004, 0x2008, 0x200C
DOOR, OTHER = 0x5000, 0x5004
NONE = "no cycle of locks in events 0 to {} of this schedule; another one may have one"


def lock(*mutexes):
    return [item for mutex in mutexes for item in call(Call.MUTEX_LOCK, mutex)]


def unlock(*mutexes):
    return [item for mutex in mutexes for item in call(Call.MUTEX_UNLOCK, mutex)]


def both(*mutexes):
    """All of them, each under those before."""
    return [*lock(*mutexes), *unlock(*reversed(mutexes))]


def read(address):
    return call(Call.RWLOCK_RDLOCK, address)


def write(address):
    return call(Call.RWLOCK_WRLOCK, address)


def leave(*addresses):
    return [item for address in addresses for item in call(Call.RWLOCK_UNLOCK, address)]


def known_of(*turns, first=None, rows=(), **what):
    return recording_of(turns, **what).show(Readings(rows), first).locks.known


class Steps(WithKeys):
    def cycles(self, *turns, cycles=1, **what):
        """So many, each closed once."""
        known = known_of(*turns, **what)
        self.assertEqual([cycle.count for cycle in known.cycles.values()], [1] * cycles, [cycle_text(cycle) for cycle in known.cycles.values()])
        return list(known.cycles.values())

    def none(self, *turns, **what):
        self.cycles(*turns, cycles=0, **what)

    def test_opposite(self):
        self.cycles((2, both(A, B)), (3, both(B, A)))
        self.none((2, both(A, B)), (3, both(A, B)))
        self.none((2, both(A, B)), (3, [*both(A), *both(B)]))
        self.none((2, lock(A)), (2, unlock(A)), (2, both(B)), (3, both(B, A)))

    def test_one_thread(self):
        self.none((2, both(A, B)), (2, both(B, A)))
        self.none((2, both(A, B)), (3, both(B, C)), (2, both(C, A)))

    def test_common_lock(self):
        self.none((2, both(GATE, A, B)), (3, both(GATE, B, A)))
        self.cycles((2, both(GATE, A, B)), (3, both(B, A)))
        self.none((2, [*read(DOOR), *write(OTHER), *both(A, B), *leave(OTHER, DOOR)]), (3, [*read(OTHER), *both(B, A), *leave(OTHER)]))
        self.cycles((2, [*read(DOOR), *both(A, B), *leave(DOOR)]), (3, [*read(DOOR), *both(B, A), *leave(DOOR)]))
        self.cycles((2, both(A, GATE, B)), (3, both(B, GATE, A)), cycles=2)

    def test_common_lock_of_two_of_three(self):
        gate = [*lock(GATE), *both(A, B), *unlock(GATE)], both(B, C), [*lock(GATE), *both(C, A), *unlock(GATE)]
        self.none(*zip((2, 3, 4), gate), threads=3)
        self.cycles(*zip((2, 3, 4), [gate[0], gate[1], both(C, A)]), threads=3)

    def test_rings(self):
        """Up to eight."""
        for count in (2, 3, 7, 8):
            ring = [(2 + number, both(0x2000 + 4 * number, 0x2000 + 4 * ((number + 1) % count))) for number in range(count)]
            self.assertEqual(len(self.cycles(*ring, threads=count)[0].orders), count)
        ring = [(2 + number, both(0x2000 + 4 * number, 0x2000 + 4 * ((number + 1) % 9))) for number in range(9)]
        self.none(*ring, threads=9)

    def test_shortest(self):
        """That of two is found, though one of three is there too."""
        found = self.cycles((2, both(A, B)), (3, both(B, C)), (4, both(B, A)), (4, both(C, A)), threads=3, cycles=2)
        self.assertEqual([len(cycle.orders) for cycle in found], [2, 3])
        self.assertEqual([len(cycle.orders) for cycle in self.cycles((2, both(B, C)), (3, both(C, A)), (4, both(B, A)), (2, both(A, B)), threads=3)], [2])

    def test_read_write_locks(self):
        for first, second, is_cycle in [(read, read, False), (read, write, True), (write, read, True), (write, write, True)]:
            turns = [(2, [*first(DOOR), *lock(A), *unlock(A), *leave(DOOR)]), (3, [*lock(A), *second(DOOR), *leave(DOOR), *unlock(A)])]
            self.cycles(*turns, cycles=int(is_cycle))
        self.none((2, [*write(A), *both(B), *leave(A)]), (3, both(B, A)))

    def test_tries(self):
        tried = [Call.MUTEX_TRYLOCK], [Call.MUTEX_TIMEDLOCK, 9, 0]
        for number, *rest in tried:
            self.none((2, both(A, B)), (3, [*lock(B), *call(number, A, *rest), *unlock(A, B)]))
            self.cycles((2, both(A, B)), (3, [*call(number, B, *rest), *lock(A), *unlock(A, B)]))
        for number in (Call.RWLOCK_TRYRDLOCK, Call.RWLOCK_TRYWRLOCK):
            self.none((2, [*write(DOOR), *both(A), *leave(DOOR)]), (3, [*lock(A), *call(number, DOOR), *leave(DOOR), *unlock(A)]))
            self.cycles((2, [*write(DOOR), *both(A), *leave(DOOR)]), (3, [*call(number, DOOR), *both(A), *leave(DOOR)]), cycles=0)
            self.cycles((2, [*lock(A), *write(DOOR), *leave(DOOR), *unlock(A)]), (3, [*call(number, DOOR), *both(A), *leave(DOOR)]))

    def test_waited_for(self):
        """A lock is had as another thread gives it up."""
        waited = [(2, lock(A)), (3, lock(B)), (3, lock(A)), (2, unlock(A)), (3, unlock(A, B)), (2, both(A, B))]
        found = self.cycles(*waited)[0].orders
        self.assertEqual([(order.thread, order.taking.position[0]) for order in found], [(2, 12), (3, 8)])
        timed = [(2, lock(A)), (3, lock(B)), (3, call(Call.MUTEX_TIMEDLOCK, A, 9, 0)), (2, unlock(A)), (3, unlock(A, B)), (2, both(A, B))]
        self.none(*timed)
        self.cycles((2, write(DOOR)), (3, [*lock(B)]), (3, read(DOOR)), (2, leave(DOOR)), (3, [*leave(DOOR), *unlock(B)]),
                    (2, [*write(DOOR), *both(B), *leave(DOOR)]))
        for waits in (read, write):
            self.cycles((2, write(DOOR)), (3, lock(B)), (3, waits(DOOR)), (2, leave(DOOR)), (3, [*leave(DOOR), *unlock(B)]),
                        (2, [*write(DOOR), *both(B), *leave(DOOR)]))
        self.none((2, lock(A)), (3, lock(B)), (3, lock(A)), (2, both(B)))

    def test_levels(self):
        nested = [*call(Call.MUTEX_INIT, GATE, 1)]
        self.none((1, nested), (2, [*lock(GATE, A, GATE), *unlock(GATE, A, GATE)]), (3, both(GATE, A)))
        self.none((1, nested), (2, [*lock(GATE, A), *unlock(A, GATE)]), (3, [*lock(GATE, A, GATE), *unlock(GATE, A, GATE)]))
        self.cycles((1, nested), (2, [*lock(GATE, GATE), *unlock(GATE), *both(A), *unlock(GATE)]), (3, both(A, GATE)))
        self.none((1, nested), (2, [*lock(GATE, GATE), *unlock(GATE, GATE), *both(A)]), (3, both(A, GATE)))
        self.cycles((2, [*read(DOOR), *read(DOOR), *leave(DOOR), *both(A), *leave(DOOR)]), (3, [*lock(A), *write(DOOR), *leave(DOOR), *unlock(A)]))

    def test_conditions(self):
        """The mutex is given up meanwhile, and had again under the other one."""
        for wait in (call(Call.COND_WAIT, 0x3000, A), call(Call.COND_TIMEDWAIT, 0x3000, A, 9, 0)):
            waits = [(2, [*lock(A, B), *wait]), (3, call(Call.COND_SIGNAL, 0x3000)), (2, unlock(A, B))]
            self.cycles(*waits, (3, both(A, B)))
            self.none((2, [*lock(A), *wait]), (3, call(Call.COND_SIGNAL, 0x3000)), (2, unlock(A)), (3, both(A, B)))
            self.cycles((2, [*lock(A, B), *wait]), (3, lock(A)), (3, call(Call.COND_SIGNAL, 0x3000)), (3, unlock(A)), (2, unlock(A, B)), (3, both(A, B)))
        self.none((2, [*lock(A), *call(Call.COND_WAIT, 0x3000, A)]), (3, both(B, A)))
        self.none((2, [*lock(A, B), *call(Call.COND_TIMEDWAIT, 0x3000, A, 0, 0), *unlock(A, B)]), (3, both(A, B)))
        late = [(2, lock(A, B)), (3, lock(A)), (2, call(Call.COND_TIMEDWAIT, 0x3000, A, 0, 0)), (3, unlock(A)), (2, unlock(A, B)), (3, both(A, B))]
        self.cycles(*late)

    def test_cancelled_waits(self):
        """The mutex is had again, and the thread goes elsewhere in the same step."""
        handler = [("handler", [*unlock(A, B), STOP])]
        push = call(Call.CLEANUP_PUSH, Label("handler"), 0)
        for owned in ([], lock(A)):
            waits = [(3, both(A, B)), (2, [*push, *lock(A, B), *call(Call.COND_WAIT, 0x3000, A)]), (3, [*owned, *call(Call.CANCEL, 2), *(unlock(A) if owned else [])])]
            for pushed, place in ((push, None), ([], (0, 0))):
                turns = [waits[0], (2, waits[1][1][len(push) - len(pushed):]), waits[2]]
                found = self.cycles(*turns, routines=handler)[0].orders[0]
                self.assertEqual(found.thread, 2)
                self.assertEqual(found.taking.place[1], 0xFFFFFFF0 if pushed else 0)
                self.assertEqual(found.taking.place == place, not pushed)

    def test_several_at_once(self):
        """In the order in which they began to wait."""
        turns = {2: (2, [*lock(A, B), *call(Call.COND_TIMEDWAIT, 0x3000, A, 5, 0)]), 3: (3, [*lock(C, GATE), *call(Call.COND_TIMEDWAIT, 0x3004, C, 4, 0)])}
        for first, second in ((2, 3), (3, 2)):
            found = self.cycles((4, [*both(A, B), *both(C, GATE)]), turns[first], turns[second], 9, threads=3, cycles=2)
            self.assertEqual([cycle.orders[0].thread for cycle in found], [first, second])
            doors = {2: (2, [*lock(A), *read(DOOR)]), 3: (3, [*lock(B), *read(DOOR)])}
            found = self.cycles((4, [*write(DOOR), *both(A), *both(B)]), doors[first], doors[second], (4, leave(DOOR)), threads=3, cycles=2)
            self.assertEqual([cycle.orders[0].thread for cycle in found], [first, second])

    def test_made_anew(self):
        for number, *rest in ([Call.MUTEX_DESTROY], [Call.MUTEX_INIT, 0]):
            for mutex, is_cycle in ((A, False), (B, False), (C, True), (A + 1, True)):
                self.cycles((2, both(A, B)), (2, call(number, mutex, *rest)), (3, both(B, A)), cycles=int(is_cycle))
            self.cycles((2, [*lock(A, B), *call(number, B, *rest), *unlock(B, A)]), (3, both(B, A)))
            self.cycles((2, both(A, B)), (2, call(Call.RWLOCK_INIT, A)), (3, both(B, A)))
        for number in (Call.RWLOCK_INIT, Call.RWLOCK_DESTROY):
            self.none((2, [*write(DOOR), *both(A), *leave(DOOR)]), (2, call(number, DOOR)), (3, [*lock(A), *write(DOOR), *leave(DOOR), *unlock(A)]))
        self.cycles((2, [*lock(GATE, A), *both(B), *unlock(A, GATE)]), (3, call(Call.MUTEX_DESTROY, GATE)), (3, both(GATE, B, A)))

    def test_threads(self):
        """One that is created holds nothing, and counts as the one that had its number."""
        again = [(1, call(Call.MUTEX_INIT, A, 1)), (2, [*lock(A), *call(Call.THREAD_EXIT, 0)]),
                 (1, [*call(Call.JOIN, 2), *call(Call.CREATE, Label("second"), 0, 0, 0)])]
        for words, is_order in ([*both(B), *unlock(A)], False), ([*lock(A), *both(B), *unlock(A, A)], True):
            self.cycles(*again, (2, 40), (3, both(B, A)), cycles=int(is_order), routines=[("second", words)])
        ended = [(2, [*lock(A), *call(Call.THREAD_EXIT, 0)]), (1, [*call(Call.JOIN, 2), *call(Call.CREATE, Label("second"), 0, 0, 0)])]
        self.none((2, both(A, B)), (2, call(Call.THREAD_EXIT, 0)), ended[1], (2, 40), routines=[("second", both(B, A))])

    def test_kit(self):
        self.none((2, both(5, A)), (3, both(A, 5)))
        self.none((2, both(4095, A)), (3, both(A, 4095)))
        self.cycles((2, both(4096, A)), (3, both(A, 4096)))
        self.cycles((2, both(5, A, B)), (3, both(5, B, A)))

    def test_stretches(self):
        """What was taken before isn't known as held, and no order from before is."""
        turns = [(2, lock(A)), (2, [*both(B), *unlock(A)]), (3, both(B, A))]
        self.cycles(*turns)
        self.cycles(*turns, first=2)
        self.none(*turns, first=4)
        self.none(*turns, first=6)

    def test_levels_from_before(self):
        """A lock is known as held once it is got again by a call."""
        before = [(1, call(Call.MUTEX_INIT, A, 1)), (2, lock(A, A))]
        for number in (Call.MUTEX_LOCK, Call.MUTEX_TRYLOCK):
            self.cycles(*before, (2, [*call(number, A), *unlock(A), *both(B), *unlock(A, A)]), (3, both(B, A)), first=5)
        self.none(*before, (2, [*both(B), *unlock(A, A)]), (3, both(B, A)), first=5)
        self.cycles(*before, (2, [*lock(B, A), *unlock(A, B, A, A)]), (3, both(A, B)), first=5)
        self.none(*before, (2, [*lock(B), *call(Call.MUTEX_TRYLOCK, A), *unlock(A, B, A, A)]), (3, both(A, B)), first=5)
        self.cycles((2, lock(A)), (2, [*call(Call.MUTEX_TRYLOCK, A), *both(B), *unlock(A)]), (3, both(B, A)), first=4)
        waits = [(2, [*lock(B), *call(Call.COND_WAIT, 0x3000, A)]), (3, call(Call.COND_SIGNAL, 0x3000)), (2, unlock(B, A, A))]
        self.none(*before, *waits, (3, both(A, B)), first=5)
        self.cycles((2, read(DOOR)), (2, [*lock(A), *read(DOOR), *leave(DOOR, DOOR), *unlock(A)]), (3, [*write(DOOR), *both(A), *leave(DOOR)]), first=4)
        for first, second in ((read, write), (write, read)):
            self.none((2, first(DOOR)), (2, [*lock(A), *second(DOOR), *leave(DOOR), *unlock(A)]), (3, [*write(DOOR), *both(A), *leave(DOOR)]), first=4)
        self.none((2, lock(A)), (2, [*lock(B), *call(Call.MUTEX_TIMEDLOCK, A, 9, 0)]), (3, both(A, B)), first=4)


class Texts(WithKeys):
    TURNS = (2, both(A, B)), (3, both(B, A))

    def lines(self, *turns, first=None, rows=()):
        recording = recording_of(turns)
        return lines_of_cycles(recording.show(Readings(rows), first).locks.known, recording.ends(first))

    def test_lines(self):
        """The creates are 14 steps; thread 2 begins at 0x103c, and behind it and a word thread 3."""
        self.assertEqual((length_of(lock(A)), length_of(lock(B))), (12, 16))
        self.assertEqual(self.lines(*self.TURNS), [
            "5+6 thread 3 takes mutex 00002000 pc 00001090 from ffffffec, 3+6 thread 2 takes mutex 00002004 pc 00001054 from ffffffec, a cycle of 2, once",
            "    5+6 thread 3 took mutex 00002004 pc 00001084 from ffffffec at 5+3",
            "    3+6 thread 2 took mutex 00002000 pc 00001044 from ffffffec at 3+2"])

    def test_read_write_locks(self):
        lines = self.lines((2, [*read(DOOR), *both(A), *leave(DOOR)]), (3, [*lock(A), *write(DOOR), *leave(DOOR), *unlock(A)]))
        self.assertIn(" takes rwlock 00005000 to write pc ", lines[0])
        self.assertIn(" took rwlock 00005000 to read pc ", lines[2])

    def test_calls(self):
        lines = self.lines((2, [*load_number(1, 0x1234), *both(A, B)]), (3, both(B, A)))
        self.assertIn(" from 00001230, a cycle of 2, once", lines[0])

    def test_none(self):
        self.assertEqual(self.lines(*self.TURNS[:1]), [NONE.format(4)])
        self.assertEqual(self.lines(*self.TURNS, first=4),
                         ["no cycle of locks in events 4 to 6 of this schedule; events before these were not looked at, and another schedule may have one"])

    def test_callers(self):
        rows = [Up(0x1000, 0x200, 2, 8, None, None), Up(0x1200, 8, 2, 0, 4, None)]
        lines = self.lines((2, [*load_number(2, 0x8000), *lock(A), *load_number(1, 0x1204), *lock(B), *unlock(B, A)]), (3, both(B, A)), rows=rows)
        self.assertEqual(lines[3:], ["    3+9 thread 2 called from 00001200"])

    def test_behind_races(self):
        recording = recording_of(self.TURNS)
        told = all_told(recording, recording.show(Readings()))
        self.assertEqual([line.split(" in events")[0] for line in told[0][:1]], ["no races"])
        self.assertEqual(told[0][1:], self.lines(*self.TURNS))
        self.assertEqual(told[0], told[1])


def taking(address, place=0, how="mutex"):
    return Taking(Lock(how, address), (0, 0), (place, 0))


class Noted(unittest.TestCase):
    def under(self, known, thread, held, address, place=0, is_order=True):
        """A lock is taken under others, and all are given up."""
        for one in held:
            known.get(thread, taking(one), False)
        known.get(thread, taking(address, place), is_order)
        for one in [*held, address]:
            known.give_up(thread, (True, one))

    def test_counted(self):
        """By new orders alone: a known one closes nothing."""
        known = LockOrders()
        for thread, held, address, place in [(1, [1], 2, 7), (2, [2], 1, 8), (2, [2], 1, 8), (1, [1], 2, 7), (3, [2], 1, 8), (4, [2], 1, 9), (5, [1], 2, 8)]:
            self.under(known, thread, held, address, place)
        self.assertEqual([(key[0], sorted(key[1]), cycle.count) for key, cycle in known.cycles.items()],
                         [(2, [(7, 0), (8, 0)], 2), (2, [(7, 0), (9, 0)], 1), (2, [(8, 0)], 1)])

    def test_known_by_places(self):
        known = LockOrders()
        for held in ([1, 3], [1, 3], [3, 1], [1]):
            self.under(known, 1, held, 2)
        self.assertEqual([[one and one.lock.address for one in order.held[-2:]] for order in known.orders], [[3, 1], [1, 3], [None, 1]])

    def test_known_by_ways(self):
        """Read locks and write locks apart, both where one is taken and where one is held."""
        known, note = LockOrders(), lambda how, held: known.note(Order(1, taking(1, how=how), [taking(2, how=held), *[None] * (HELD - 1)]))
        for how, held in (("read", "mutex"), ("write", "mutex"), ("read", "mutex"), ("mutex", "read"), ("mutex", "write"), ("mutex", "read")):
            note(how, held)
        self.assertEqual(len(known.orders), 4)

    def test_no_other(self):
        """What is taken alone is no order."""
        known = LockOrders()
        known.get(1, taking(1), True)
        self.assertEqual(known.orders, [])

    def search(self, *orders):
        """The threads of the cycle that the last order closes; each is a thread, what it held and what it took."""
        known = LockOrders()
        for thread, held, address in orders:
            known.note(Order(thread, taking(address), [taking(held), *[None] * (HELD - 1)]))
        return [order.thread for order in known.cycle_of(known.orders[-1]) or []]

    def test_breadth_first(self):
        three, four = [(2, 11, 12), (3, 12, 10)], [(4, 11, 13), (5, 13, 14), (6, 14, 10)]
        self.assertEqual(self.search(*three, *four, (1, 10, 11)), [1, 2, 3])
        self.assertEqual(self.search(*four, *three, (1, 10, 11)), [1, 2, 3])

    def test_each_order_once(self):
        """So a cycle is missed here: the only path to thread 4 goes by thread 2, which also closes it."""
        self.assertEqual(self.search((2, 11, 12), (3, 11, 12), (4, 12, 13), (2, 13, 10), (1, 10, 11)), [])
        self.assertEqual(self.search((3, 11, 12), (2, 11, 12), (4, 12, 13), (2, 13, 10), (1, 10, 11)), [1, 3, 4, 2])

    def test_last_free_place(self):
        known = LockOrders()
        for one in (1, 2, 3):
            known.get(1, taking(one), False)
        known.give_up(1, (True, 2))
        known.get(1, taking(4), False)
        known.get(1, taking(5), False)
        self.assertEqual([one and one.lock.address for one in known.held[1][-4:]], [5, 3, 4, 1])

    def test_places_of_orders(self):
        """That of one which has nothing left is taken, the last one first."""
        known = LockOrders()
        for address in (11, 12, 13, 14):
            self.under(known, 1, [1], address)
        self.under(known, 1, [2, 3], 15)
        for gone in (11, 13, 2):
            known.forget((True, gone))
        self.assertEqual([len(order.locks()) for order in known.orders], [0, 1, 0, 1, 1])
        for address in (21, 22, 23):
            self.under(known, 1, [5], address)
        self.assertEqual([order.taking.lock.address for order in known.orders], [22, 12, 21, 14, 15, 23])

    def test_known_no_more(self):
        known = LockOrders()
        self.under(known, 1, [1, 2], 3)
        known.forget((True, 1))
        self.under(known, 1, [1, 2], 3)
        self.assertEqual(len(known.orders), 2)
        known.forget((True, 3))
        self.under(known, 1, [1, 2], 3)
        self.assertEqual(len(known.orders), 2)

    def test_other_cycles(self):
        known = LockOrders()
        for one in range(CYCLES + 2):
            self.under(known, 1, [2 * one], 2 * one + 1, 100 + one)
            self.under(known, 2, [2 * one + 1], 2 * one, 200 + one)
        self.under(known, 3, [1], 0, 200)
        self.assertEqual((len(known.cycles), known.others, next(iter(known.cycles.values())).count), (64, 2, 2))
        self.assertEqual(lines_of_cycles(known, (0, 9))[-1], "and 2 times elsewhere in a cycle")

    def test_held(self):
        known = LockOrders()
        for one in range(HELD):
            known.get(1, taking(one), True)
        self.assertEqual((len(known.orders), known.is_used_up, HELD), (15, False, 16))
        known.get(1, taking(3), True)
        self.assertFalse(known.is_used_up)
        known.get(1, taking(16), True)
        self.under(known, 2, [30], 31)
        self.assertEqual((len(known.orders), known.is_used_up, known.holds(1, (True, 16))), (16, True, False))
        self.assertEqual(lines_of_cycles(known, (0, 9)), [NONE.format(9), "the room for orders of locks was used up, later ones were not looked at"])

    def test_orders(self):
        known = LockOrders()
        for one in range(ORDERS):
            self.under(known, 1, [1], 2 + one)
        self.under(known, 1, [1], 2)
        self.assertEqual((len(known.orders), known.is_used_up, ORDERS), (2048, False, 2048))
        known.forget((True, 100))
        self.under(known, 2, [2], 1)
        self.assertEqual((len(known.orders), known.is_used_up, len(known.cycles)), (2048, False, 1))
        self.under(known, 2, [3], 1)
        self.assertEqual((len(known.orders), known.is_used_up, len(known.cycles)), (2048, True, 1))


class AllRows:
    """A second reading, which keeps orders as they were drawn and looks at all rows of them."""

    def __init__(self):
        self.orders = []

    @staticmethod
    def is_cycle(row):
        for one, other in permutations(row, 2):
            common = [(mine, yours) for mine in one[2] for yours in other[2] if mine[0] == yours[0] and "read" != mine[1] or mine[0] == yours[0] and "read" != yours[1]]
            if one[0] == other[0] or common:
                return False
        return all(any(lock[0] == held[0] and {lock[1], held[1]} != {"read"} for held in after[2]) for (_, lock, _), after in zip(row, row[1:] + row[:1]))

    def shortest(self, order):
        """Of how many orders the shortest cycle with this one is, up to four; None where there is none."""
        self.orders.append(order)
        for count in (1, 2, 3):
            if any(self.is_cycle([order, *others]) for others in permutations(self.orders[:-1], count)):
                return count + 1
        return None


class SearchAndAllRows(unittest.TestCase):
    def test_drawn_orders(self):
        """A cycle of two is found wherever there is one, and no row is told that is none. Of three a path may be missed, which is rare."""
        met, missed = [0] * 5, 0
        for seed in range(300):
            chance, known, rows = Random(seed), LockOrders(), AllRows()
            for _ in range(7):
                thread, locks = chance.randrange(4), [(address, chance.choice(["read", "write"])) for address in chance.sample(range(5), chance.choice([2, 2, 3]))]
                order = thread, locks[0], locks[1:]
                held = [Taking(Lock(how, address), (0, 0), (0, 0)) for address, how in locks[1:]]
                before = sum(cycle.count for cycle in known.cycles.values()), len(known.orders)
                known.note(Order(thread, Taking(Lock(locks[0][1], locks[0][0]), (0, 0), (0, 0)), held + [None] * (HELD - len(held))))
                if len(known.orders) == before[1]:
                    continue
                found = known.cycle_of(known.orders[-1])
                shortest = rows.shortest(order)
                self.assertEqual(sum(cycle.count for cycle in known.cycles.values()) - before[0], found is not None)
                if found:
                    self.assertTrue(rows.is_cycle([(one.thread, (one.taking.lock.address, one.taking.lock.how),
                                                    [(lock.address, lock.how) for lock in one.locks()]) for one in found]))
                    self.assertLessEqual(shortest, len(found))
                if shortest == 2:
                    self.assertEqual(len(found), 2)
                missed += shortest is not None and not found
                met[shortest or 0] += 1
        self.assertTrue(all(met[count] for count in (0, 2, 3)), met)
        self.assertLess(missed, 5)


class Drawn(WithKeys):
    def test_kind(self):
        """Cases have cycles of two and more, and more than have lines; room is used up in some."""
        lengths, others, used_up = set(), 0, 0
        for seed in (1, 3, 8, 117):
            case = case_of("cycles", seed)
            known = Recording(bytearray(case.contents)).show(Readings(case.rows)).locks.known
            lengths |= {len(cycle.orders) for cycle in known.cycles.values()}
            others, used_up = others + known.others, used_up + known.is_used_up
        self.assertLessEqual({2, 3}, lengths)
        self.assertTrue(others and used_up)
        self.assertEqual(LONGEST, 8)
