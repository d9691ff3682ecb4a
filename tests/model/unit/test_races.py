"""Data races: what orders accesses and what doesn't, by small guests; which accesses are kept; the text; and clocks beside chains."""
import unittest
from collections import Counter
from random import Random

from cases.glances import OF_BYTES, OF_KIT, OF_ORDERS, RULES, rules_not_met, tell_met
from cases.kinds import case_of
from model.abi import ALL_ONES, Call
from model.accesses import Access, Shadow
from model.assembler import STOP, Jump, Label, Program, call_words, image_of, immediate_form, length_of, load_number, register_form, store_form
from model.clocks import Clocks
from model.layout import Geometry, format_disk
from model.lines import serve_disk
from model.other_rules import AS_ONE, BEFORE_STORES, BEHIND_LOADS, BOTH_SIDES, GIVEN_LATER, LOADS_ORDER, STAYS, STORES_ORDER
from model.races import EARLIER, ELSEWHERE, ONE_AROUND, SEVERAL, Readings
from model.stretches import Recording
from model.switches import switched

SHARED = 0x2800
FENCE_RW_W, FENCE_R_RW, FENCE_RW_RW = 0x0310000F, 0x0230000F, 0x0330000F
FENCE_W_W, FENCE_R_R = 0x0110000F, 0x0220000F
FENCES_OF_THREADS = [0x0330000F, 0x0FF0000F, 0x0730000F, 0x03B0000F, 0x0B70000F, 0x8330000F, 0xFFF0000F, 0x0330008F, 0x0330800F, 0x0FFFFF8F]
OTHER_FENCES = [0x0310000F, 0x0320000F, 0x0130000F, 0x0230000F, 0x0110000F, 0x0220000F, 0x0120000F, 0x0C30000F, 0x03C0000F, 0x0D30000F,
                0x0E30000F, 0x03D0000F, 0x03E0000F, 0x0000000F, 0x3000000F, 0x00F0000F, 0x0F00000F]
HALF, BYTE, BYTE_UNSIGNED = 1, 0, 4


def base(offset=0):
    return load_number(3, SHARED + offset)


def store(offset=0, width=2):
    return [*base(offset), store_form(width, 4, 0, 3)]


def load(offset=0, width=2):
    return [*base(offset), immediate_form(0x03, width, 4, 3, 0)]


def published(offset=8, fence=FENCE_RW_W):
    """An atomic store."""
    return [*base(offset), fence, store_form(2, 4, 0, 3)]


def looked_at(offset=8, fence=FENCE_R_RW):
    """An atomic load."""
    return [*base(offset), immediate_form(0x03, 2, 4, 3, 0), fence]


def relaxed_store(offset=8):
    return published(offset, FENCE_W_W)


def relaxed_load(offset=8):
    return looked_at(offset, FENCE_R_R)


def call(number, *arguments):
    return call_words(number, *arguments)


def locked(items, mutex=0x2000):
    return [*call(Call.MUTEX_LOCK, mutex), *items, *call(Call.MUTEX_UNLOCK, mutex)]


def recording_of(turns, threads=2, routines=()):
    """Thread 1 creates others, and then each turn is a thread's, the words that it executes or a number of steps of a routine; or so many ticks."""
    code = {1: [item for number in range(2, threads + 2) for item in call(Call.CREATE, Label(f"thread {number}"), 0, 0, 0)],
            **{number: [] for number in range(2, threads + 2)}}
    lines = ["place 0 1", f"run 0 {length_of(code[1]) // 4}"]
    for turn in turns:
        if isinstance(turn, int):
            lines.append(f"tick {turn}")
            continue
        number, items = turn
        steps = items if isinstance(items, int) else length_of(items) // 4
        code[number] = code.get(number, []) + ([] if isinstance(items, int) else items)
        lines += [f"place 0 {number}", f"run 0 {steps}"]
    program = Program()
    for name, items in [*((f"thread {number}", items) for number, items in code.items()), *routines]:
        program.label(name)
        program.add([*items, STOP])
    disk = format_disk(Geometry(16, 1, 1 << 16), image_of(program.words()))
    serve_disk(disk, "\n".join([*lines, "commit", ""]).encode())
    return Recording(disk)


def told(*turns, **what):
    """The lines; None where the page leaves them open."""
    return recording_of(turns, **what).show(Readings()).lines()


def short(line):
    """Without positions, addresses and pcs."""
    if line.startswith("no races in events"):
        return "none"
    first, second, times = line.split(", ")
    return ", ".join([*(" ".join(access.split()[2:-3]) for access in (first, second)), times])


class WithKeys(unittest.TestCase):
    def setUp(self):
        switch = switched(keys=True, long_runs=True)
        switch.__enter__()
        self.addCleanup(switch.__exit__, None, None, None)

    def race(self, *turns, races=("2 stores, 3 loads, once",), **what):
        self.assertEqual([short(line) for line in told(*turns, **what)], list(races))

    def no_race(self, *turns, **what):
        self.race(*turns, races=["none"], **what)

    def is_open(self, *turns, **what):
        self.assertIsNone(told(*turns, **what))


class Accesses(WithKeys):
    def test_text(self):
        """The creates are 14 steps; thread 2 begins at 0x103c."""
        self.assertEqual(told((2, store()), (3, load())),
                         ["3+2 thread 2 stores 00002800 pc 00001044, 5+2 thread 3 loads 00002800 pc 00001054, once"])

    def test_kinds(self):
        self.race((2, load()), (3, store()), races=["2 loads, 3 stores, once"])
        self.race((2, store()), (3, store()), races=["2 stores, 3 stores, once"])
        self.no_race((2, load()), (3, load()))
        self.no_race((2, store()), (2, load()))

    def test_common_bytes(self):
        self.race((2, store(0, BYTE)), (3, load(0, HALF)))
        self.race((2, store(2, HALF)), (3, load(3, BYTE_UNSIGNED)))
        self.no_race((2, store(0, HALF)), (3, load(2, HALF)))
        self.no_race((2, store(0, BYTE)), (3, load(1, BYTE)))
        self.no_race((2, store()), (3, load(4)))

    def test_faults_access_nothing(self):
        self.no_race((2, store()), (3, load(1)))
        self.no_race((2, store()), (3, load(0, 3)))
        self.no_race((2, load()), (3, store(0, 3)))

    def test_kept_loads(self):
        """A store meets the loads of the two threads that loaded last, the later one first; each has its last one."""
        loads = [(2, load()), (3, load()), (4, load())]
        self.race(*loads, (5, store()), threads=4, races=["4 loads, 5 stores, once", "3 loads, 5 stores, once"])
        self.race(*loads, (2, load()), (5, store()), threads=4, races=["2 loads, 5 stores, once", "4 loads, 5 stores, once"])
        self.race((2, load(0, BYTE)), (2, load(1, BYTE)), (3, store(0, BYTE)), races=["none"])

    def test_kept_stores(self):
        """The last one alone, and it stays behind loads."""
        self.race((2, store()), (4, store()), (3, load()), threads=3, races=["2 stores, 4 stores, once", "4 stores, 3 loads, once"])
        self.race((2, store()), (3, load()), (4, load()), threads=3, races=["2 stores, 3 loads, once", "2 stores, 4 loads, once"])
        self.race((2, load()), (2, store()), (3, store()), races=["2 stores, 3 stores, once", "2 loads, 3 stores, once"])

    def test_pairs(self):
        """Of two places, whichever comes first; and a place with itself."""
        routines = [(name, [*store(), Jump(name)]) for name in ("left", "right")]
        made = [(2, call(Call.CREATE, Label(name), 0, 0, 0)) for name in ("left", "right", "left")]
        self.race(*made, (4, 4), (5, 4), (4, 4), (5, 4), routines=routines, races=["4 stores, 5 stores, 3 times"])
        self.race(*made, (4, 4), (6, 4), (4, 4), (5, 4), routines=routines, races=["4 stores, 6 stores, 2 times", "4 stores, 5 stores, once"])

    def test_other_places(self):
        stores = [item for _ in range(70) for item in store()]
        lines = told((2, store()), (3, stores))
        self.assertEqual([short(line) for line in lines], ["2 stores, 3 stores, once"])
        lines = told((2, [item for at in range(70) for item in store(4 * at)]), (3, [item for at in range(70) for item in store(4 * at)]))
        self.assertEqual((len(lines), lines[-1]), (65, "and 6 times at other places"))


def others_of(*pairs):
    """Lines by pairs that raced once each."""
    return [f"{first}, {second}, once" for first, second in pairs]


class Parts(WithKeys):
    """Of each byte the last store to it."""

    def raced(self, *turns, behind):
        """Stores that one lock orders, and then what thread 3 does without it: `behind` has that, and with whose stores it races, in order."""
        does, with_whom = behind
        ordered = [(number, locked(items)) for number, items in turns]
        self.race(*ordered, (3, does), threads=6, races=[f"{number} stores, 3 loads, once" for number in with_whom] or ["none"])

    def test_each_byte_has_its_own(self):
        stores = [(number, store(at, BYTE)) for at, number in enumerate([2, 4, 5, 6])]
        self.raced(*stores, behind=(load(), [2, 4, 5, 6]))
        for at, (number, _) in enumerate(stores):
            self.raced(*stores, behind=(load(at, BYTE), [number]))
        self.raced(*stores, behind=(load(0, HALF), [2, 4]))
        self.raced(*stores, behind=(load(2, HALF), [5, 6]))

    def test_bytes_of_a_store(self):
        """As many as it has, from its first one on; of no others."""
        word = (2, store())
        for at in range(4):
            self.raced(word, (4, store(at, BYTE)), behind=(load(), sorted([2, 4], reverse=at == 0)))
            self.raced((2, store(at, BYTE)), (4, store()), behind=(load(), [4]))
            self.raced((2, store(at, BYTE)), (4, store(at, BYTE)), behind=(load(), [4]))
            self.raced((2, store(at, BYTE)), (4, store(at & 2, HALF)), behind=(load(), [4]))
            self.raced((2, store(at, BYTE)), (4, store(2 - (at & 2), HALF)), behind=(load(), [2, 4] if at < 2 else [4, 2]))
            self.raced((2, store(at & 2, HALF)), (4, store(at, BYTE)), behind=(load(), [2, 4] if at & 1 else [4, 2]))
        self.raced(word, (4, store(0, HALF)), (5, store(2, HALF)), behind=(load(), [4, 5]))
        self.raced(word, (4, store(2, HALF)), (5, store(0, HALF)), behind=(load(), [5, 4]))

    def test_overwritten(self):
        """A word's store is kept till the last of its bytes is stored to."""
        pieces = [(number, store(at, BYTE)) for at, number in enumerate([4, 5, 6])]
        self.raced((2, store()), *pieces, behind=(load(), [4, 5, 6, 2]))
        self.raced((2, store()), *pieces, (7, store(3, BYTE)), behind=(load(), [4, 5, 6, 7]))
        self.raced((2, store(2, HALF)), (4, store(3, BYTE)), (5, store(2, BYTE)), behind=(load(), [5, 4]))

    def test_order_is_by_byte(self):
        """Whichever came first."""
        for order in ([0, 1, 2, 3], [3, 2, 1, 0], [2, 0, 3, 1], [1, 3, 0, 2]):
            self.raced(*((4 + at, store(at, BYTE)) for at in order), behind=(load(), [4, 5, 6, 7]))

    def test_each_store_once(self):
        """At its first byte, also with another one between; counted once."""
        self.raced((2, store()), (4, store(1, BYTE)), behind=(load(), [2, 4]))
        self.raced((2, store()), (4, store(2, BYTE)), (5, store(1, BYTE)), behind=(load(), [2, 5, 4]))
        self.raced((2, store()), (4, store(0, BYTE)), (5, store(2, BYTE)), behind=(load(), [4, 2, 5]))
        self.race((2, store()), (3, store()), races=["2 stores, 3 stores, once"])

    def test_then_loads(self):
        """The later one first."""
        stores = [(2, locked(store(2, HALF))), (4, locked(store(0, BYTE)))]
        loads = [(5, [*locked([]), *load(3, BYTE)]), (6, [*locked([]), *load(0, HALF)])]
        self.race(*stores, *loads, (3, store()), threads=5,
                  races=others_of(("4 stores", "3 stores"), ("2 stores", "3 stores"), ("6 loads", "3 stores"), ("5 loads", "3 stores")))

    def test_bytes_not_accessed(self):
        """A store that is the last one of other bytes alone races by what it stored to."""
        for at in range(4):
            self.raced((2, store()), (4, store(at, BYTE)), behind=(load(at, BYTE), [4, 2] if at == 0 else [2, 4]))
        self.raced((2, store()), (4, store(2, HALF)), behind=(load(2, HALF), [2, 4]))
        self.raced((2, store(2, HALF)), (4, store(2, BYTE)), behind=(load(2, BYTE), [4, 2]))
        self.raced((2, store(2, HALF)), (4, store(0, BYTE)), behind=(load(1, BYTE), []))
        self.race((2, locked(store())), (4, locked(store(1, BYTE))), (3, locked(load(1, BYTE))), threads=3, races=["none"])

    def test_ordered_behind_the_later_one_alone(self):
        """The earlier one races with the later store, and with the load behind that."""
        self.race((2, store()), (4, locked(store(1, BYTE))), (3, locked(load(1, BYTE))), threads=3,
                  races=others_of(("2 stores", "4 stores"), ("2 stores", "3 loads")))
        self.race((2, store()), (3, store(1, BYTE)), (3, load(1, BYTE)), races=others_of(("2 stores", "3 stores"), ("2 stores", "3 loads")))

    def test_stores_beside_stores(self):
        self.race((2, store(0, BYTE)), (4, store(1, BYTE)), (3, store(2, HALF)), threads=3, races=["none"])
        self.race((2, store(0, BYTE)), (4, store(3, BYTE)), (3, store()), threads=3, races=others_of(("2 stores", "3 stores"), ("4 stores", "3 stores")))

    def test_atomic_ones(self):
        """They are kept as plain ones are."""
        atomic = [*base(1), FENCE_RW_W, store_form(BYTE, 4, 0, 3)]
        self.race((2, [*store(), *atomic]), (3, load()), races=others_of(("2 stores", "3 loads"), ("2 stores atomically", "3 loads")))
        self.race((2, [*published(0), *store(1, BYTE)]), (3, load(1, BYTE)), races=others_of(("2 stores atomically", "3 loads"), ("2 stores", "3 loads")))
        self.race((2, [*store(1, BYTE), *published(0)]), (3, load()), races=["2 stores atomically, 3 loads, once"])

    def test_loads_are_kept_by_the_word(self):
        """That of a thread takes the place of its last one, and two others that of any, whichever byte they load."""
        first, second, third = ((number, load(at, BYTE)) for number, at in [(2, 0), (4, 1), (5, 2)])
        self.race(first, second, third, (3, store(0, BYTE)), threads=4, races=["none"])
        self.race(first, second, third, (3, store()), threads=4, races=others_of(("5 loads", "3 stores"), ("4 loads", "3 stores")))
        self.race(first, (2, load(3, BYTE)), (3, store(0, BYTE)), races=["none"])
        self.race(first, second, (3, store(0, BYTE)), threads=3, races=["2 loads, 3 stores, once"])
        self.race(first, (2, load(3, BYTE)), second, (3, store()), threads=3, races=others_of(("4 loads", "3 stores"), ("2 loads", "3 stores")))

    def test_counted_by_pairs(self):
        """Each store once for an access: in a line's number, and in that of other places."""
        routines = [("left", [*store(), *store(1, BYTE), Jump("left")]), ("right", [*load(), Jump("right")])]
        made = [(2, call(Call.CREATE, Label(name), 0, 0, 0)) for name in ("left", "right")]
        times = [f"4 stores, 5 loads, {count} times" for count in (3, 3)]
        self.race(*made, (4, 6), (5, 12), routines=routines, races=times)
        words = range(70)
        stores = [item for at in words for item in [*store(4 * at), *store(4 * at + 1, BYTE)]]
        lines = told((2, stores), (3, [item for at in words for item in load(4 * at)]))
        self.assertEqual((len(lines), lines[-1]), (65, "and 76 times at other places"))
        self.assertEqual({short(line) for line in lines[:-1]}, {"2 stores, 3 loads, once"})

    def test_given_anew(self):
        """All bytes' stores are forgotten, and the word counts once."""
        stores = [(2, [item for at in range(4) for item in store(at, BYTE)])]
        self.no_race(*stores, (3, [*anew(0, 4), *load()]))
        readings = recording_of([*stores, (3, anew(0, 4))]).show(Readings())
        self.assertEqual(readings.met, {"a word given anew": 1})

    def test_under_locks_of_a_kit(self):
        """They take no byte's place."""
        self.race((2, store()), (2, locked(store(1, BYTE), 2)), (3, load()))


class Locks(WithKeys):
    def test_mutex(self):
        self.no_race((2, locked(store())), (3, locked(load())))
        self.race((2, locked(store())), (3, locked(load(), 0x2004)))
        self.race((2, [*call(Call.MUTEX_LOCK, 0x2000), *store()]), (3, load()))
        self.race((2, [*locked([]), *store()]), (3, locked(load())))

    def test_one_direction(self):
        """Who takes the lock first isn't ordered behind the other."""
        self.race((3, locked([])), (2, locked(store())), (3, load()))

    def test_hand_over(self):
        self.no_race((2, [*call(Call.MUTEX_LOCK, 0x2000), *store()]), (3, call(Call.MUTEX_LOCK, 0x2000)),
                     (2, call(Call.MUTEX_UNLOCK, 0x2000)), (3, load()))

    def test_locks_of_one_word(self):
        """A lock is known by its address, be there another one at the next byte; one of another kind is another one."""
        def held(lock, taken, items):
            return [*call(taken, lock), *items, *call(Call.RWLOCK_UNLOCK, lock)]

        for one, other in [(0x2000, 0x2001), (0x2001, 0x2000), (0x2001, 0x2002), (0x2000, 0x3003), (ALL_ONES, ALL_ONES - 1)]:
            self.race((2, locked(store(), one)), (3, locked(load(), other)))
            self.race((2, held(one, Call.RWLOCK_WRLOCK, store())), (3, held(other, Call.RWLOCK_RDLOCK, load())))
            self.no_race((2, locked(store(), one)), (3, locked(load(), one)))
            self.no_race((2, held(one, Call.RWLOCK_WRLOCK, store())), (3, held(one, Call.RWLOCK_RDLOCK, load())))
        self.race((2, locked(store())), (3, held(0x2000, Call.RWLOCK_RDLOCK, load())))
        wait = [*call(Call.MUTEX_LOCK, 0x2001), *store(), *call(Call.COND_WAIT, 0x3000, 0x2001)]
        self.race((2, wait), (3, locked(load(), 0x2002)))
        self.no_race((2, wait), (3, locked(load(), 0x2001)))

    def test_words_that_count_as_one(self):
        self.no_race((2, [*store(), *published(8)]), (3, [*looked_at(8 + 4096), *load()]))
        self.race((2, [*store(), *published(8)]), (3, [*looked_at(12), *load()]))
        self.no_race((2, [*store(), *published(8)]), (3, [*looked_at(8), *load()]))

    def test_locks_that_count_as_one(self):
        self.no_race((2, locked(store())), (3, locked(load(), 0x5000)))
        self.race((2, locked(store())), (3, [*call(Call.RWLOCK_WRLOCK, 0x2000), *load()]))

    def test_levels(self):
        """Whether an unlock that leaves a level gives up the mutex is open; it is seen only where another one counts as this one."""
        twice = [*call(Call.MUTEX_INIT, 0x2000, 1), *call(Call.MUTEX_LOCK, 0x2000), *call(Call.MUTEX_LOCK, 0x2000), *store(),
                 *call(Call.MUTEX_UNLOCK, 0x2000)]
        self.is_open((2, twice), (3, locked(load(), 0x3000)))
        self.no_race((2, [*twice, *call(Call.MUTEX_UNLOCK, 0x2000)]), (3, locked(load())))

    def test_conditions(self):
        """A wait gives up the mutex and takes it again; a signal orders nothing."""
        wait = [*call(Call.MUTEX_LOCK, 0x2000), *store(), *call(Call.COND_WAIT, 0x3000, 0x2000)]
        self.no_race((2, wait), (3, locked(load())))
        self.race((2, [*locked([]), *wait[:-1]][:-1]), (3, load()))
        wait = [*call(Call.MUTEX_LOCK, 0x2000), *call(Call.COND_WAIT, 0x3000, 0x2000)]
        self.race((3, wait), (2, [*store(), *call(Call.COND_SIGNAL, 0x3000)]), (3, load()))
        self.no_race((3, wait), (2, [*locked(store()), *call(Call.COND_SIGNAL, 0x3000)]), (3, load()))

    def test_read_write_locks(self):
        def held(number, items, lock=0x2000):
            return [*call(number, lock), *items, *call(Call.RWLOCK_UNLOCK, lock)]
        read, write = Call.RWLOCK_RDLOCK, Call.RWLOCK_WRLOCK
        self.no_race((2, held(write, store())), (3, held(write, load())))
        self.no_race((2, held(write, store())), (3, held(read, load())))
        self.no_race((2, held(read, store())), (3, held(write, load())))
        self.race((2, held(read, store())), (3, held(read, load())))
        self.no_race((2, held(write, store())), (3, held(Call.RWLOCK_TRYRDLOCK, load())))
        self.no_race((2, held(read, store())), (3, held(Call.RWLOCK_TRYWRLOCK, load(), 0x7000)))

    def test_barriers(self):
        """All that come, before all that leave; and no earlier round."""
        begun = (1, call(Call.BARRIER_INIT, 0x2000, 2))
        wait = call(Call.BARRIER_WAIT, 0x2000)
        self.no_race(begun, (2, [*store(), *wait]), (3, [*wait, *load()]))
        self.no_race(begun, (3, wait), (2, [*store(), *wait]), (3, load()))
        self.race(begun, (3, wait), (2, [*wait, *store()]), (3, load()))
        self.race((1, call(Call.BARRIER_INIT, 0x2000, 1)), (2, [*store(), *wait]), (3, [*wait, *load()]))

    def test_atomic_operations(self):
        self.no_race((2, [*store(), *published()]), (3, [*looked_at(), *load()]))
        self.no_race((2, published()), (3, looked_at()))
        self.race((2, [*store(), *published()]), (3, [*looked_at(12), *load()]))
        self.race((3, looked_at()), (2, [*store(), *published()]), (3, load()))
        self.no_race((2, [*store(), *published()]), (1, published()), (3, [*looked_at(), *load()]))
        both = ["2 stores, 3 loads, once"] * 2
        self.race((2, [*store(), *published(8, FENCE_RW_RW)]), (3, [*looked_at(), *load()]), races=["2 stores, 3 loads atomically, once", both[0]])
        self.race((2, [*store(), *published()]), (3, [*looked_at(8, FENCE_RW_RW), *load()]), races=["2 stores atomically, 3 loads, once", both[0]])
        self.race((2, [*store(), *store(8)]), (3, [*load(8), *load()]), races=both)

    def test_plain_beside_atomic(self):
        """Of one word, whichever comes first; two atomic ones don't race, nor do two loads, nor accesses to other bytes."""
        self.race((2, published()), (3, load(8)), races=["2 stores atomically, 3 loads, once"])
        self.race((3, load(8)), (2, published()), races=["3 loads, 2 stores atomically, once"])
        self.race((2, store(8)), (3, looked_at()), races=["2 stores, 3 loads atomically, once"])
        self.race((3, looked_at()), (2, store(8)), races=["3 loads atomically, 2 stores, once"])
        self.race((2, published()), (3, store(8)), races=["2 stores atomically, 3 stores, once"])
        self.race((2, store(8)), (3, published()), races=["2 stores, 3 stores atomically, once"])
        self.race((2, published()), (3, load(9, BYTE)), races=["2 stores atomically, 3 loads, once"])
        for first, second in [(published(), published()), (looked_at(), published()), (looked_at(), looked_at()), (looked_at(), load(8)), (published(), load(12))]:
            self.no_race((2, first), (3, second))
        self.assertEqual(told((2, published()), (3, load(8))),
                         ["3+3 thread 2 stores atomically 00002808 pc 00001048, 5+2 thread 3 loads 00002808 pc 00001058, once"])

    def test_plain_ordered_beside_atomic(self):
        """By the atomic store, which is itself among what it leads on from; by a lock; not what comes behind the one or before the other."""
        self.no_race((2, [*store(8), *published()]), (3, looked_at()))
        self.no_race((2, published()), (3, [*looked_at(), *store(8)]))
        self.no_race((2, published()), (3, [*looked_at(), *load(8)]))
        self.no_race((2, locked(published())), (3, locked(load(8))))
        self.no_race((2, locked(store(8))), (3, locked(published())))
        self.race((2, [*published(), *store(8)]), (3, looked_at()), races=["2 stores, 3 loads atomically, once"])
        self.race((2, published()), (3, [*load(8), *looked_at()]), races=["2 stores atomically, 3 loads, once"])
        self.race((3, looked_at()), (2, published()), (3, load(8)), races=["2 stores atomically, 3 loads, once"])
        self.race((2, [*store(), *published()]), (3, [*published(), *load()]))
        self.race((2, [*store(), *looked_at()]), (3, [*looked_at(), *load()]))
        self.no_race((2, [*store(8), *published(8 + 4096)]), (3, looked_at(8)))

    def test_kept_atomic(self):
        """They are kept as plain ones are, and in their place."""
        self.race((2, [*store(8), *published()]), (3, load(8)), races=["2 stores atomically, 3 loads, once"])
        self.race((2, [*published(), *store(8)]), (3, published()), races=["2 stores, 3 stores atomically, once"])
        self.no_race((2, [*store(8), *published()]), (3, published()))
        self.no_race((2, [*load(8), *looked_at()]), (3, published()))
        self.race((2, [*looked_at(), *load(8)]), (3, published()), races=["2 loads, 3 stores atomically, once"])
        self.race((2, load(8)), (3, looked_at()), (4, store(8)), threads=3,
                  races=["3 loads atomically, 4 stores, once", "2 loads, 4 stores, once"])


class MemoryOrders(WithKeys):
    """Thread 2 stores and passes on by a word; thread 3 looks at that, and loads."""

    def test_relaxed_is_atomic(self):
        """As one that orders is: two don't race, and one races with a plain access."""
        self.no_race((2, relaxed_store()), (3, relaxed_load()))
        self.no_race((2, relaxed_store()), (3, relaxed_store()))
        for first, second in [(relaxed_store(), looked_at()), (published(), relaxed_load()), (published(), relaxed_store())]:
            self.no_race((2, first), (3, second))
            self.no_race((3, second), (2, first))
        self.race((2, relaxed_store()), (3, load(8)), races=["2 stores atomically, 3 loads, once"])
        self.race((3, relaxed_load()), (2, store(8)), races=["3 loads atomically, 2 stores, once"])
        self.race((2, store(8)), (3, relaxed_store()), races=["2 stores, 3 stores atomically, once"])
        self.assertEqual(told((2, relaxed_store()), (3, load(8))),
                         ["3+3 thread 2 stores atomically 00002808 pc 00001048, 5+2 thread 3 loads 00002808 pc 00001058, once"])

    def test_relaxed_beside_another_fence(self):
        """Before a store, and behind a load."""
        self.race((2, [*base(8), FENCE_R_R, store_form(2, 4, 0, 3)]), (3, relaxed_load()), races=["2 stores, 3 loads atomically, once"])
        self.race((2, relaxed_store()), (3, looked_at(8, FENCE_W_W)), races=["2 stores atomically, 3 loads, once"])
        self.race((2, [*store(8), FENCE_W_W]), (3, relaxed_load()), races=["2 stores, 3 loads atomically, once"])
        self.race((2, relaxed_store()), (3, [*base(8), FENCE_R_R, immediate_form(0x03, 2, 4, 3, 0)]), races=["2 stores atomically, 3 loads, once"])

    def test_relaxed_orders_nothing(self):
        """On either side."""
        for given, taken in [(relaxed_store(), looked_at()), (published(), relaxed_load()), (relaxed_store(), relaxed_load())]:
            self.race((2, [*store(), *given]), (3, [*taken, *load()]))
        self.no_race((2, [*store(), *published()]), (3, [*looked_at(), *load()]))

    def test_fences(self):
        """Before the relaxed store, behind the relaxed load; on both sides."""
        for given, taken in [([FENCE_RW_RW, *relaxed_store()], looked_at()), (published(), [*relaxed_load(), FENCE_RW_RW]),
                             ([FENCE_RW_RW, *relaxed_store()], [*relaxed_load(), FENCE_RW_RW])]:
            self.no_race((2, [*store(), *given]), (3, [*taken, *load()]))

    def test_fences_on_one_side_alone(self):
        self.race((2, [*store(), FENCE_RW_RW, *relaxed_store()]), (3, [*relaxed_load(), *load()]))
        self.race((2, [*store(), *relaxed_store()]), (3, [*relaxed_load(), FENCE_RW_RW, *load()]))

    def test_where_fences_stand(self):
        taken = (3, [*looked_at(), *load()])
        self.race((2, [FENCE_RW_RW, *store(), *relaxed_store()]), taken)
        self.race((2, [*store(), *relaxed_store(), FENCE_RW_RW]), taken)
        self.race((2, [*store(), *relaxed_store()]), (2, [FENCE_RW_RW]), taken)
        self.no_race((2, [*store(), FENCE_RW_RW, *load(4), *relaxed_store()]), taken)
        given = (2, [*store(), *published()])
        self.race(given, (3, [*relaxed_load(), *load(), FENCE_RW_RW]))
        self.race(given, (3, [FENCE_RW_RW, *relaxed_load(), *load()]))
        self.no_race(given, (3, [*relaxed_load(), *load(4), FENCE_RW_RW, *load()]))

    def test_last_fence(self):
        """What was done by then, and not what was done since; each fence takes the place of the one before."""
        stores = [*store(), FENCE_RW_RW, *store(4)]
        self.race((2, [*stores, *relaxed_store()]), (3, [*looked_at(), *load(), *load(4)]))
        self.assertTrue(" 00002804 " in told((2, [*stores, *relaxed_store()]), (3, [*looked_at(), *load(), *load(4)]))[0])
        self.no_race((2, [*stores, FENCE_RW_RW, *relaxed_store()]), (3, [*looked_at(), *load(), *load(4)]))
        self.no_race((2, [*stores, *published()]), (3, [*looked_at(), *load(), *load(4)]))

    def test_the_store_itself(self):
        """It comes behind the fence, so it isn't given up; one that releases is."""
        given = [FENCE_RW_RW, *relaxed_store()]
        self.race((2, given), (3, [*looked_at(), *load(8)]), races=["2 stores atomically, 3 loads, once"])
        self.race((2, given), (3, [*relaxed_load(), FENCE_RW_RW, *load(8)]), races=["2 stores atomically, 3 loads, once"])
        self.no_race((2, published()), (3, [*relaxed_load(), FENCE_RW_RW, *load(8)]))

    def test_kinds_of_fences(self):
        for fence in FENCES_OF_THREADS:
            self.no_race((2, [*store(), fence, *relaxed_store()]), (3, [*looked_at(), *load()]))
            self.no_race((2, [*store(), *published()]), (3, [*relaxed_load(), fence, *load()]))
        for fence in OTHER_FENCES:
            self.race((2, [*store(), fence, *relaxed_store()]), (3, [*looked_at(), *load()]))
            self.race((2, [*store(), *published()]), (3, [*relaxed_load(), fence, *load()]))

    def test_fences_alone(self):
        """They order nothing without an atomic operation, nor with plain accesses, nor for another thread."""
        self.race((2, [*store(), FENCE_RW_RW]), (3, [FENCE_RW_RW, *load()]))
        self.race((2, [*store(), FENCE_RW_RW, *relaxed_store()]), (3, [FENCE_RW_RW, *load()]))
        self.race((2, [*store(), FENCE_RW_RW, *store(8)]), (3, [*load(8), FENCE_RW_RW, *load()]), races=["2 stores, 3 loads, once"] * 2)
        self.race((2, store()), (4, [FENCE_RW_RW]), (2, relaxed_store()), (3, [*looked_at(), *load()]), threads=3)
        self.race((2, [*store(), *published()]), (3, relaxed_load()), (4, [FENCE_RW_RW]), (3, load()), threads=3)
        self.race((2, [*store(), *published()]), (3, relaxed_load()), (4, [FENCE_RW_RW, *load()]), threads=3, races=["2 stores, 4 loads, once"])

    def test_words(self):
        """Of the store and the load: the same one, or one that counts as it."""
        given = [*store(), FENCE_RW_RW, *relaxed_store()]
        self.race((2, given), (3, [*looked_at(12), *load()]))
        self.race((2, given), (3, [*relaxed_load(12), FENCE_RW_RW, *load()]))
        self.race((2, [*store(), *published()]), (3, [*relaxed_load(12), FENCE_RW_RW, *load()]))
        self.no_race((2, given), (3, [*looked_at(8 + 4096), *load()]))
        self.no_race((2, given), (3, [*relaxed_load(8 + 4096), FENCE_RW_RW, *load()]))
        self.race((2, given), (3, [*looked_at(8 + 2048), *load()]))
        byte = [*store(), FENCE_RW_RW, *base(9), FENCE_W_W, store_form(BYTE, 4, 0, 3)]
        self.no_race((2, byte), (3, [*relaxed_load(), FENCE_RW_RW, *load()]))
        for fence, behind in [(FENCE_R_RW, []), (FENCE_R_R, [FENCE_RW_RW])]:
            half = [*base(10), immediate_form(0x03, HALF, 4, 3, 0), fence, *behind, *load()]
            self.no_race((2, given), (3, half))
            self.no_race((2, byte), (3, half))

    def test_sequences(self):
        """What was given up stays there behind relaxed stores, with a fence or without one, and behind plain ones."""
        given = [*store(), *published()]
        for taken in ([*looked_at(), *load()], [*relaxed_load(), FENCE_RW_RW, *load()]):
            for passed in (relaxed_store(), [FENCE_RW_RW, *relaxed_store()], [*relaxed_load(), *relaxed_store()]):
                self.no_race((2, given), (4, passed), (3, taken), threads=3)
            self.no_race((2, given), (2, relaxed_store()), (3, taken))
            self.no_race((2, [*store(), FENCE_RW_RW, *relaxed_store()]), (4, relaxed_store()), (3, taken), threads=3)
        self.race((2, given), (4, store(8)), (3, [*looked_at(), *load()]), threads=3,
                  races=["2 stores atomically, 4 stores, once", "4 stores, 3 loads atomically, once"])

    def test_when_a_load_has_loaded(self):
        """What is given up to the word behind the load isn't taken."""
        given = (2, [*store(), *published()])
        self.race((3, relaxed_load()), given, (3, [FENCE_RW_RW, *load()]))
        self.no_race((3, relaxed_load()), given, (3, [*relaxed_load(), FENCE_RW_RW, *load()]))
        self.race((3, [*relaxed_load(), FENCE_RW_RW]), given, (3, [FENCE_RW_RW, *load()]))

    def test_all_loads(self):
        """A fence takes what each of them found, however long ago; also where a lock or a load that acquires came between."""
        given = [(2, [*store(), *published()]), (4, [*store(4), *published(12)])]
        self.no_race(*given, (3, [*relaxed_load(8), *relaxed_load(12), *load(16), *locked([]), FENCE_RW_RW, *load(), *load(4)]), threads=3)
        self.race(*given, (3, [*relaxed_load(8), *looked_at(12), *load(4), *load()]), threads=3)
        self.no_race(*given, (3, [*relaxed_load(8), *looked_at(12), FENCE_RW_RW, *load(4), *load()]), threads=3)
        self.no_race(*given, (3, [*relaxed_load(8), FENCE_RW_RW, *relaxed_load(12), FENCE_RW_RW, *load(), *load(4)]), threads=3)
        self.race(*given, (3, [*relaxed_load(8), FENCE_RW_RW, *relaxed_load(12), *load()]), (3, load(4)), threads=3, races=["4 stores, 3 loads, once"])

    def test_all_givers(self):
        """Of each that gave up to the word."""
        given = [(2, [*store(), FENCE_RW_RW, *relaxed_store()]), (4, [*store(4), FENCE_RW_RW, *relaxed_store()])]
        for taken in (looked_at(), [*relaxed_load(), FENCE_RW_RW]):
            self.no_race(*given, (3, [*taken, *load(), *load(4)]), threads=3)

    def test_chains(self):
        """A fence gives up what it took, and what its thread had seen by then."""
        taken = (3, [*looked_at(12), *load()])
        given = (2, [*store(), *published()])
        self.no_race(given, (4, [*relaxed_load(), FENCE_RW_RW, *relaxed_store(12)]), taken, threads=3)
        self.race(given, (4, [*relaxed_load(), *published(12)]), taken, threads=3)
        self.race(given, (4, [FENCE_RW_RW, *relaxed_load(), *relaxed_store(12)]), taken, threads=3)
        self.race(given, (4, [FENCE_RW_RW, *looked_at(), *relaxed_store(12)]), taken, threads=3)
        self.no_race(given, (4, [*looked_at(), FENCE_RW_RW, *relaxed_store(12)]), taken, threads=3)
        self.no_race((2, locked(store())), (4, [*locked([]), FENCE_RW_RW, *relaxed_store(12)]), taken, threads=3)
        self.race((2, locked(store())), (4, [FENCE_RW_RW, *locked([]), *relaxed_store(12)]), taken, threads=3)

    def test_one_direction(self):
        """A fence that takes behind one that gives up; not the other way round."""
        self.race((3, [*relaxed_load(), FENCE_RW_RW]), (2, [*store(), FENCE_RW_RW, *relaxed_store()]), (3, load()))
        self.race((2, [FENCE_RW_RW, *relaxed_store(), *store()]), (3, [*relaxed_load(), FENCE_RW_RW, *load()]))

    def test_created(self):
        """A thread has no fence of who created it."""
        late = [("late", [*relaxed_store()])]
        create = call(Call.CREATE, Label("late"), 0, 0, 0)
        self.race((2, [*store(), FENCE_RW_RW, *create]), (4, length_of(late[0][1]) // 4), (3, [*looked_at(), *load()]), routines=late)

    def test_numbers_given_again(self):
        """They count as one thread, so the last fence is that of the thread that had the number."""
        late = [("first", [*store(), FENCE_RW_RW, *call(Call.THREAD_EXIT, 0)]), ("second", relaxed_store())]
        made = [(number, call(Call.CREATE, Label(name), 0, 0, 1)) for number, name in [(1, "first"), (2, "second")]]
        self.no_race(made[0], (4, length_of(late[0][1]) // 4), made[1], (4, length_of(late[1][1]) // 4), (3, [*looked_at(), *load()]), routines=late)

    def test_not_executed(self):
        """A thread that acts on a request where its fence stands hasn't executed that."""
        pushed = [*call(Call.CLEANUP_PUSH, Label("handler"), 0), *call(Call.SETCANCELTYPE, 1)]
        turns = [(3, pushed), (2, [*store(), *published()]), (3, relaxed_load()), (1, call(Call.CANCEL, 3)), (3, [FENCE_RW_RW]), (3, 4)]
        self.race(*turns, routines=[("handler", load())])
        self.no_race(*turns[:3], turns[4], turns[3], (3, 4), routines=[("handler", load())])

    def test_as_a_kit_has_them(self):
        """Relaxed accesses under its locks are told, and fences there order; what was passed on stays where memory is given anew."""
        self.race((2, locked(relaxed_store(), 3)), (3, load(8)), races=["2 stores atomically, 3 loads, once"])
        self.no_race((2, [*store(), *locked([FENCE_RW_RW, *relaxed_store()], 3)]), (3, [*locked([*relaxed_load(), FENCE_RW_RW], 3), *load()]))
        self.no_race((2, [*store(), FENCE_RW_RW, *relaxed_store()]), (3, [*anew(8, 4), *relaxed_load(), FENCE_RW_RW, *load()]))

    def test_stretches(self):
        """A fence, a load or what was given up before the stretch is of no account there."""
        recording = recording_of([(2, [FENCE_RW_RW]), (3, relaxed_load()), (2, [*store(), *relaxed_store()]), (3, [FENCE_RW_RW, *load()])])
        for first in (0, 4, 6):
            self.assertEqual([short(line) for line in recording.show(Readings(), first).lines()], ["2 stores, 3 loads, once"])
        recording = recording_of([(2, [*store(), *published()]), (3, relaxed_load()), (2, store()), (3, [FENCE_RW_RW, *load()])])
        for first in (0, 4, 6):
            self.assertEqual([short(line) for line in recording.show(Readings(), first).lines()], ["2 stores, 3 loads, once"])


class Threads(WithKeys):
    def test_create_and_join(self):
        create = call(Call.CREATE, Label("late"), 0, 0, 0)
        late = [("late", [*load(), *store(8), *call(Call.THREAD_EXIT, 0)])]
        length = length_of(late[0][1]) // 4
        self.no_race((2, [*store(), *create]), (4, length), routines=late)
        self.race((2, [*create, *store()]), (4, length), routines=late, races=["2 stores, 4 loads, once"])
        self.no_race((2, create), (4, length), (3, [*call(Call.JOIN, 4), *load(8)]), routines=late)
        self.no_race((2, create), (3, call(Call.JOIN, 4)), (4, length), (3, load(8)), routines=late)
        self.race((2, create), (4, length), (3, [*call(Call.DETACH, 4), *load(8)]), routines=late, races=["4 stores, 3 loads, once"])
        self.race((2, [*call(Call.DETACH, 3), *store()]), (3, load()))

    def test_numbers_given_again(self):
        """A thread that gets a number is ordered behind the one that had it."""
        create = call(Call.CREATE, Label("late"), 0, 0, 1)
        late = [("late", [*store(), *call(Call.THREAD_EXIT, 0)])]
        self.no_race((2, create), (4, length_of(late[0][1]) // 4), (3, create), (4, 3), routines=late)

    def test_cancelled_joiner(self):
        """It joins nobody."""
        pushed = [*call(Call.CLEANUP_PUSH, Label("handler"), 0), *call(Call.JOIN, 2)]
        self.race((3, pushed), (2, store()), (1, call(Call.CANCEL, 3)), (3, 3), routines=[("handler", load())])


class Requests(WithKeys):
    PUSHED = call(Call.CLEANUP_PUSH, Label("handler"), 0)
    HANDLER = [("handler", load())]
    CANCELS = [*store(), *call(Call.CANCEL, 3)]

    def test_acting(self):
        """At a point, at once, in a wait, and behind a condition."""
        self.no_race((3, self.PUSHED), (2, self.CANCELS), (3, call(Call.TESTCANCEL)), (3, 3), routines=self.HANDLER)
        self.no_race((3, [*self.PUSHED, *call(Call.SETCANCELTYPE, 1)]), (2, self.CANCELS), (3, 4), routines=self.HANDLER)
        self.no_race((3, [*self.PUSHED, *call(Call.GETC)]), (2, self.CANCELS), (3, 3), routines=self.HANDLER)
        waits = [*self.PUSHED, *call(Call.MUTEX_LOCK, 0x2000), *call(Call.COND_WAIT, 0x3000, 0x2000)]
        self.no_race((3, waits), (2, self.CANCELS), (3, 3), routines=self.HANDLER)

    def test_before_acting(self):
        self.race((2, self.CANCELS), (3, load()))
        self.race((3, call(Call.SETCANCELSTATE, 1)), (2, self.CANCELS), (3, [*call(Call.TESTCANCEL), *load()]))
        self.race((3, self.PUSHED), (2, [*call(Call.CANCEL, 3), *store()]), (3, call(Call.TESTCANCEL)), (3, 3), routines=self.HANDLER)

    def test_ends(self):
        """A thread that ends where it acts has seen who cancelled it; one that unwinds by itself hasn't."""
        self.no_race((3, call(Call.GETC)), (2, self.CANCELS), (1, [*call(Call.JOIN, 3), *load()]))
        left = [*self.PUSHED, *call(Call.SETCANCELSTATE, 1)]
        self.race((3, left), (2, self.CANCELS), (3, call(Call.THREAD_EXIT, 0)), (3, 3), routines=self.HANDLER)


class Stretches(WithKeys):
    def test_what_was_before(self):
        recording = recording_of([(2, store()), (3, load()), (2, load()), (3, store())])
        whole = recording.show(Readings()).lines()
        self.assertEqual([short(line) for line in whole], ["2 stores, 3 loads, once", "2 stores, 3 stores, once", "2 loads, 3 stores, once"])
        self.assertEqual(recording.show(Readings(), 6).lines(), [whole[2]])
        self.assertEqual(recording.show(Readings(), None, 6).lines(), [whole[0]])
        self.assertEqual([short(line) for line in recording.show(Readings(), 4, 4).lines()], ["none"])

    def test_what_was_looked_at(self):
        """Its ends are told where there is no race; and that others came before, where they did."""
        recording = recording_of([(2, store()), (3, load())])
        from_begin = "no races in events {} to {} of this schedule; another one may have some"
        later = "no races in events {} to {} of this schedule; events before these were not looked at, and another schedule may have some"
        for ends, text, told_ends in [((None, None), None, None), ((None, 5), from_begin, (0, 5)), ((0, 0), from_begin, (0, 0)),
                                      ((1, 5), later, (1, 5)), ((4, None), later, (4, 6)), ((6, 6), later, (6, 6))]:
            lines = recording.show(Readings(), *ends).lines()
            self.assertEqual(lines == [text.format(*told_ends)] if text else short(lines[0]) == "2 stores, 3 loads, once", True, lines)


class Kits(WithKeys):
    """What a kit does for itself."""

    def held(self, lock, items, taken=Call.RWLOCK_WRLOCK):
        return [*call(taken, lock), *items, *call(Call.RWLOCK_UNLOCK, lock)]

    def test_mutexes(self):
        """Below 4,096 they pass on nothing, however they are taken."""
        for lock in (0, 5, 6, 2048, 4095):
            self.race((2, locked(store(), lock)), (3, locked(load(), lock)))
            for taken in (call(Call.MUTEX_TRYLOCK, lock), call(Call.MUTEX_TIMEDLOCK, lock, 9, 0)):
                self.race((2, locked(store(), lock)), (3, [*taken, *load()]))
            self.race((2, [*call(Call.MUTEX_LOCK, lock), *store()]), (3, call(Call.MUTEX_LOCK, lock)), (2, call(Call.MUTEX_UNLOCK, lock)), (3, load()))
        for lock in (4096, 4097, 8191, 8192 + 5, ALL_ONES):
            self.no_race((2, locked(store(), lock)), (3, locked(load(), lock)))

    def test_beside_those_that_count_as_one(self):
        """A kit's lock passes nothing to one whose place it would have, and takes nothing from that."""
        for one, other in [(5, 4096 + 5), (4096 + 5, 5)]:
            self.race((2, locked(store(), one)), (3, locked(load(), other)))
            self.race((2, self.held(one, store())), (3, self.held(other, load())))

    def test_recursive(self):
        """Nor does one of some levels, in either reading."""
        twice = [*call(Call.MUTEX_INIT, 5, 1), *call(Call.MUTEX_LOCK, 5), *call(Call.MUTEX_LOCK, 5), *store(), *call(Call.MUTEX_UNLOCK, 5)]
        self.race((2, twice), (3, locked(load(), 4096 + 5)))
        self.race((2, [*twice, *call(Call.MUTEX_UNLOCK, 5)]), (3, locked(load(), 5)))

    def test_read_write_locks(self):
        for lock in (1, 4095):
            for taken in (Call.RWLOCK_RDLOCK, Call.RWLOCK_TRYRDLOCK, Call.RWLOCK_WRLOCK, Call.RWLOCK_TRYWRLOCK):
                self.race((2, self.held(lock, store())), (3, self.held(lock, load(), taken)))
                self.race((2, self.held(lock, store(), taken)), (3, self.held(lock, load())))
        self.no_race((2, self.held(4096, store())), (3, self.held(4096, load())))

    def test_waits(self):
        """The mutex of a wait at a condition is given up and taken again without passing on."""
        wait = [*call(Call.MUTEX_LOCK, 5), *store(), *call(Call.COND_WAIT, 0x3000, 5)]
        self.race((2, wait), (3, locked(load(), 5)))
        wait = [*call(Call.MUTEX_LOCK, 5), *call(Call.COND_WAIT, 0x3000, 5)]
        self.race((3, wait), (2, [*locked(store(), 5), *call(Call.COND_SIGNAL, 0x3000)]), (3, load()))

    def test_what_orders_nevertheless(self):
        """Barriers of such names, atomic operations under a kit's lock, and the program's lock around it."""
        wait = call(Call.BARRIER_WAIT, 7)
        self.no_race((1, call(Call.BARRIER_INIT, 7, 2)), (2, [*store(), *wait]), (3, [*wait, *load()]))
        for lock in (3, 5):
            self.no_race((2, [*store(), *locked(published(), lock)]), (3, [*locked(looked_at(), lock), *load()]))
        self.no_race((2, locked([*store(), *locked([], 5)])), (3, locked([*locked([], 5), *load()])))

    def test_accesses_of_a_kit(self):
        """Plain ones of who owns one of the first four are told nowhere, on whichever side."""
        for lock in (1, 2, 3, 4):
            self.no_race((2, locked(store(), lock)), (3, load()))
            self.no_race((2, store()), (3, locked(load(), lock)))
            self.race((2, [*locked([], lock), *store()]), (3, load()))
            self.race((2, [*call(Call.MUTEX_LOCK, lock)]), (3, store()), (4, load()), threads=3, races=["3 stores, 4 loads, once"])
        for lock in (0, 5, 6, 4096 + 1):
            self.race((2, locked(store(), lock)), (3, load()))
        self.no_race((2, locked(locked(store(), 5), 2)), (3, load()))
        self.race((2, self.held(2, store())), (3, load()))

    def test_they_take_no_place(self):
        """What was kept before stays."""
        self.race((2, store()), (2, locked(store(), 2)), (3, load()))
        self.race((2, [*store(), *locked(store(), 2)]), (4, locked(store(), 1)), (3, load()), threads=3)
        self.race((2, load()), (3, locked(load(), 2)), (4, load()), (5, store()), threads=4, races=["4 loads, 5 stores, once", "2 loads, 5 stores, once"])

    def test_atomic_under_locks_of_a_kit(self):
        self.race((2, locked(published(), 3)), (3, load(8)), races=["2 stores atomically, 3 loads, once"])
        self.race((3, store(8)), (2, locked(looked_at(), 3)), races=["3 stores, 2 loads atomically, once"])

    def test_waiter_owns_none(self):
        """Behind the wait it does."""
        wait = [*call(Call.MUTEX_LOCK, 2), *call(Call.COND_WAIT, 0x3000, 2)]
        self.no_race((3, wait), (2, [*store(), *call(Call.COND_SIGNAL, 0x3000)]), (3, load()))
        self.race((3, wait), (2, [*store(), *call(Call.COND_SIGNAL, 0x3000)]), (3, [*call(Call.MUTEX_UNLOCK, 2), *load()]))


def anew(offset, length, compare=register_form(0, 2, 0, 5, 6)):
    """That so many bytes from there on are given anew."""
    return [*load_number(5, SHARED + offset & ALL_ONES), *load_number(6, length), compare]


class GivenAnew(WithKeys):
    def test_forgotten(self):
        """Stores and loads, plain and atomic; whoever tells it; and not what comes behind it."""
        self.no_race((2, [*store(), *anew(0, 4)]), (3, load()))
        self.no_race((2, store()), (1, anew(0, 4)), (3, load()))
        self.no_race((2, load()), (3, [*anew(0, 4), *store()]))
        self.no_race((2, load()), (3, load()), (4, [*anew(0, 4), *store()]), threads=3)
        self.no_race((2, published()), (3, [*anew(8, 4), *load(8)]))
        self.no_race((2, looked_at()), (3, [*anew(8, 4), *store(8)]))
        self.race((2, [*anew(0, 4), *store()]), (3, load()))
        self.race((2, [*store(), *anew(0, 4), *store()]), (3, load()))

    def test_words(self):
        """Just those from the first on, so many."""
        for offset, length in [(0, 0), (0, 3), (-4, 4), (4, 4), (4, 400), (-400, 400), (-8, 8), (-8, 11), (-5, 7), (-3, 4), (8, ALL_ONES - 7)]:
            self.race((2, store()), (3, [*anew(offset, length), *load()]))
        for offset, length in [(0, 4), (0, 7), (-4, 8), (-400, 404), (0, 400), (-8, 12), (3, 4), (1, 7), (-3, 8), (0, ALL_ONES), (-SHARED, SHARED + 4)]:
            self.no_race((2, store()), (3, [*anew(offset, length), *load()]))

    def test_whole_words(self):
        self.no_race((2, store(3, BYTE)), (3, [*anew(0, 4), *load(3, BYTE)]))
        self.no_race((2, store(2, HALF)), (3, [*anew(2, 4), *load(2, HALF)]))

    def test_outside_memory(self):
        """Words that aren't there are passed over, and no address comes round."""
        self.race((2, store()), (3, [*anew(0x4000000, ALL_ONES), *load()]))
        self.race((2, store()), (3, [*anew(-16 - SHARED, SHARED + 400), *load()]))
        self.no_race((2, store()), (3, [*anew(-SHARED, ALL_ONES), *load()]))

    def test_other_instructions(self):
        """Of another register, unsigned, or with a number in it; another operation of no register."""
        for compare in [register_form(0, 2, 4, 5, 6), register_form(0, 3, 0, 5, 6), immediate_form(0x13, 2, 0, 5, 6), register_form(0, 0, 0, 5, 6)]:
            self.race((2, store()), (3, [*anew(0, 4, compare), *load()]))

    def test_as_an_instruction(self):
        """It changes no register: the load behind it is that of x5."""
        loads = immediate_form(0x03, 2, 4, 5, 0)
        self.race((2, store()), (3, [*anew(0, 0), loads]))

    def test_orders_stay(self):
        """What was passed on by the word is passed on nevertheless."""
        self.no_race((2, [*store(), *published()]), (3, [*anew(8, 4), *looked_at(), *load()]))


class Met(WithKeys):
    """How often the rules about a kit were met."""

    def met(self, *turns, stretch=(None, None), **what):
        readings, tally = recording_of(turns, **what).show(Readings(), *stretch), Counter()
        tell_met(readings, readings.lines(), tally)
        return {what: count for (_, what), count in tally.items() if count}

    def test_bytes(self):
        """Where a store around another one raced, where one of other bytes did, and where several did."""
        both = [(2, [*store(), *store(1, BYTE)])]
        each = {ONE_AROUND: 1, EARLIER: 1, SEVERAL: 1}
        self.assertEqual(self.met(*both, (3, load())), each)
        self.assertEqual(self.met(*both, (3, load(0, HALF))), each)
        self.assertEqual(self.met(*both, (3, load(1, BYTE))), {**each, ELSEWHERE: 1})
        self.assertEqual(self.met(*both, (3, load(2, HALF))), {ONE_AROUND: 1, EARLIER: 1})
        self.assertEqual(self.met(*both, (3, load(1, BYTE)), (3, load(1, BYTE))), {ONE_AROUND: 2, EARLIER: 2, SEVERAL: 2, ELSEWHERE: 2})
        self.assertEqual(self.met((2, [*store(), *store(2, HALF)]), (3, load(0, HALF))), {EARLIER: 1})
        self.assertEqual(self.met((2, [*store(), *store(0, BYTE)]), (3, load(0, BYTE))), {EARLIER: 1, SEVERAL: 1, ELSEWHERE: 1})
        self.assertEqual(self.met((2, [*store(0, BYTE), *store(1, BYTE)]), (3, load(1, BYTE))), {})
        self.assertEqual(self.met((2, load()), (3, store())), {})

    def test_memory_orders(self):
        """Each where another rule would tell otherwise; an order that takes both fences is that of both alone."""
        given, passed, taken = [*store(), *published()], [*store(), FENCE_RW_RW, *relaxed_store()], [*relaxed_load(), FENCE_RW_RW, *load()]
        none = {"none, from the begin": 1}
        for turns, met in [
            ([(2, given), (3, [*looked_at(), *load()])], none),
            ([(2, given), (3, [*relaxed_load(), *load()])], {LOADS_ORDER: 1}),
            ([(2, [*store(), *relaxed_store()]), (3, [*looked_at(), *load()])], {STORES_ORDER: 1}),
            ([(2, [*store(), *relaxed_store()]), (3, [*relaxed_load(), *load()])], {}),
            ([(2, passed), (3, [*looked_at(), *load()])], {**none, BEFORE_STORES: 1}),
            ([(2, given), (3, taken)], {**none, BEHIND_LOADS: 1}),
            ([(2, passed), (3, taken)], {**none, BOTH_SIDES: 1}),
            ([(2, [*store(), FENCE_RW_RW, *store(4), *relaxed_store()]), (3, [*looked_at(), *load(4)])], {STORES_ORDER: 1}),
            ([(2, given), (4, relaxed_store()), (3, [*looked_at(), *load()])], {**none, STAYS: 1}),
            ([(2, given), (4, published()), (3, [*looked_at(), *load()])], none),
            ([(3, relaxed_load()), (2, given), (3, [FENCE_RW_RW, *load()])], {GIVEN_LATER: 1}),
            ([(3, relaxed_load(12)), (2, given), (3, [FENCE_RW_RW, *load()])], {}),
            ([(2, given), (3, [*looked_at(8 + 4096), *load()])], {**none, AS_ONE: 1}),
            ([(2, given), (3, [*looked_at(8 + 4096), *load(), *load()])], {**none, AS_ONE: 2}),
        ]:
            self.assertEqual(self.met(*turns, threads=3), met)

    def test_each(self):
        none = {"none, from the begin": 1}
        self.assertEqual(self.met((2, load())), none)
        self.assertEqual(self.met((2, load()), stretch=(2, None)), {"none, from later on": 1})
        self.assertEqual(self.met((2, store()), (3, load())), {})
        self.assertEqual(self.met((2, locked(store(), 2))), {**none, "an access of a kit": 1})
        self.assertEqual(self.met((2, [*store(), *load(4), *anew(0, 8)])), {**none, "a word given anew": 2})
        self.assertEqual(self.met((2, anew(0, 8))), none)

    def test_locks(self):
        """Only where one comes to a thread from another one."""
        taken = {"none, from the begin": 1, "a kit's lock taken behind another thread": 1}
        for lock, turns in [(5, [2, 2]), (4096 + 5, [2, 3])]:
            self.assertEqual(self.met(*((number, locked([], lock)) for number in turns)), {"none, from the begin": 1})
        self.assertEqual(self.met((2, locked([], 5)), (3, locked([], 5))), taken)
        self.assertEqual(self.met((2, locked([], 5)), (3, locked([], 6)), (3, locked([], 5))), taken)
        self.assertEqual(self.met(*((number, locked([], 5)) for number in (2, 3, 2))), {**taken, "a kit's lock taken behind another thread": 2})

    def test_not_met(self):
        tally = Counter({(subject, what): 1 for subject, rules in RULES.items() for what in rules})
        self.assertEqual((rules_not_met(tally), len(tally)), ([], 17))
        for subject, rules in RULES.items():
            for what, rule in rules.items():
                missed = Counter({**tally, (subject, what): 0})
                self.assertEqual(rules_not_met(missed), [rule])
                self.assertEqual(rules_not_met(missed, [OF_KIT]), [rule] if subject == OF_KIT else [])

    def test_drawn(self):
        """A plain case meets each about a kit and bytes, and one of passes each about memory orders."""
        for kind, subjects, count in [("kit", [OF_KIT, OF_BYTES], 2), ("orders", [OF_ORDERS], 0)]:
            case, tally = case_of(kind, 2), Counter()
            for stretch in [(None, None), *case.stretches[len(case.stretches) - count:]]:
                readings = Recording(bytearray(case.contents)).show(Readings(), *stretch)
                tell_met(readings, readings.narrow.lines(), tally)
            self.assertEqual(rules_not_met(tally, subjects), [])


class AllAccesses:
    """The second way: every access is kept, and what is compared is looked up from the last one back."""

    def __init__(self):
        self.accesses = []

    def keep(self, access, epoch):
        self.accesses.append((access, epoch))

    def forget(self, words):
        self.accesses = [kept for kept in self.accesses if kept[0].address // 4 * 4 not in words]

    def last(self, is_one):
        return next((kept for kept in reversed(self.accesses) if is_one(kept[0])), None)

    def kept(self, word):
        found = []
        for byte in range(word, word + 4):
            store = self.last(lambda access: access.is_store and access.address <= byte < access.address + access.length)
            found += [store] if store and store not in found else []
        load = self.last(lambda access: not access.is_store and access.address // 4 == word // 4)
        other = load and self.last(lambda access: not access.is_store and access.address // 4 == word // 4 and access.thread != load[0].thread)
        return found + [kept for kept in (load, other) if kept]


class ShadowAndAllAccesses(unittest.TestCase):
    def test_drawn_accesses(self):
        for seed in range(200):
            chance, ways = Random(seed), (Shadow(), AllAccesses())
            for number in range(40):
                length = chance.choice([1, 1, 2, 4])
                address = chance.randrange(SHARED, SHARED + 8) & -length
                access = Access((number, 0), chance.randrange(2, 6), chance.random() < 0.6, address, length, chance.randrange(4), chance.random() < 0.2)
                anew = range(SHARED, SHARED + chance.choice([4, 8]), 4) if chance.random() < 0.03 else None
                for way in ways:
                    way.keep(access, number)
                    if anew:
                        way.forget(anew)
                for word in (SHARED, SHARED + 4):
                    self.assertEqual(ways[0].kept(word), ways[1].kept(word), seed)


class Chains:
    """The second way: each doing of a thread, and which doings come right behind it."""

    def __init__(self):
        self.last, self.behind, self.given, self.count = {}, {}, {}, 0
        self.fences, self.found = {}, {}

    def do(self, thread):
        """A doing, which is a number."""
        self.count += 1
        self.behind[self.count] = set()
        if thread in self.last:
            self.behind[self.last[thread]].add(self.count)
        self.last[thread] = self.count
        return self.count

    def give(self, thread, holder):
        self.given.setdefault(holder, []).append(self.do(thread))

    def take(self, thread, holder):
        doing = self.do(thread)
        for given in self.given.get(holder, []):
            self.behind[given].add(doing)

    def store(self, thread, word, is_ordering):
        """A relaxed one hands on the fence, where there was one."""
        if is_ordering:
            self.give(thread, word % 4096)
        elif thread in self.fences:
            self.given.setdefault(word % 4096, []).append(self.fences[thread])

    def load(self, thread, word, is_ordering):
        if is_ordering:
            self.take(thread, word % 4096)
        else:
            self.found.setdefault(thread, []).extend(self.given.get(word % 4096, []))

    def fence(self, thread):
        self.fences[thread] = self.do(thread)
        for given in self.found.get(thread, []):
            self.behind[given].add(self.fences[thread])

    def lead(self, thread, other):
        first, second = self.do(thread), self.do(other)
        self.behind[first].add(second)

    def meet(self, threads):
        came = [self.do(thread) for thread in threads]
        left = [self.do(thread) for thread in threads]
        for doing in came:
            self.behind[doing].update(left)

    def leads_to(self, doing, thread):
        """Whether a chain goes from a doing to the last one of a thread."""
        reached, left = {doing}, [doing]
        while left:
            more = self.behind[left.pop()] - reached
            reached |= more
            left += more
        return self.last.get(thread) in reached


class ClocksAndChains(unittest.TestCase):
    def test_drawn_ways(self):
        flags = [8, 8, 8 + 4096, 12]
        for seed in range(600):
            chance, ways, doings = Random(seed), (Clocks(), Chains()), []
            for _ in range(40):
                thread, other = chance.sample(range(1, 6), 2)
                name, *words = chance.choice([("give", thread, chance.choice("ab")), ("take", thread, chance.choice("ab")),
                                              ("lead", thread, other), ("meet", [thread, other]), ("do", thread), ("do", thread), ("fence", thread),
                                              ("store", thread, chance.choice(flags), chance.random() < 0.2), ("fence", thread),
                                              ("load", thread, chance.choice(flags), chance.random() < 0.2)])
                if name == "do":
                    doings.append((thread, ways[0].epoch(thread), ways[1].do(thread)))
                else:
                    for way in ways:
                        getattr(way, name)(*words)
                for first, epoch, doing in doings[-6:]:
                    for number in set(range(1, 6)) - {first}:
                        self.assertEqual(ways[0].has_seen(number, first, epoch), ways[1].leads_to(doing, number), seed)
