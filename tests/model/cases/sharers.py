"""Random guests of several threads that load and store words which they share, between calls that order some of that."""
from cases.guests import Guest, theme_weights
from model.abi import Call
from model.assembler import add, call_words, immediate_form, load_upper, store_form

SHARED = [-2048, -2044, -2040, -1024]  # from the address that each routine has in x3
LOADS, STORES = [2, 2, 2, 0, 1, 4, 5], [2, 2, 2, 0, 1]  # by funct3
LOADS_OF_PARTS, STORES_OF_PARTS = [0, 4, 1, 5], [0, 0, 1]  # of bytes and halfwords
FLAGS = [-1536, -1532]  # words that are passed on by
BASE, TWIN = 3, 18  # registers: that address, and the one 4,096 bytes below
FENCE_RW_W, FENCE_R_RW = 0x0310000F, 0x0230000F
FENCE_W_W, FENCE_R_R = 0x0110000F, 0x0220000F
OTHER_FENCES = [0x0330000F, 0x0FF0000F, 0x0120000F, 0x0310008F, 0x0230800F, 0x8330000F, 0x0130000F, 0x0320000F, 0x0210000F]
OF_THREADS = [0x0330000F] * 4 + [0x0FF0000F] * 4 + [0x0730000F, 0x03B0000F, 0x8330000F, 0x0330008F, 0x0330800F, 0xFFF0000F]
OF_NO_THREADS = [0x0310000F, 0x0230000F, 0x0320000F, 0x0130000F, 0x0110000F, 0x0220000F, 0x0C30000F, 0x03D0000F, 0x0E30000F]
WEIGHTS = {"mutex": 8, "condition": 5, "barrier": 4, "lock": 6, "thread": 6, "cancel": 6, "stream": 1, "odd": 0.1}
APART = [0x2000, 0x2000, 0x2001, 0x2003, 0x2004, 0x2009, 0x2FFF]  # no two of these addresses count as one, though some are in one word
AS_ONE = [0x2000, 0x2000, 0x3000, 0x2001, 0x9001]  # two pairs that do
PLAIN = {Call.MUTEX_TRYLOCK: Call.MUTEX_LOCK, Call.MUTEX_TIMEDLOCK: Call.MUTEX_LOCK, Call.RWLOCK_RDLOCK: Call.RWLOCK_WRLOCK,
         Call.RWLOCK_TRYRDLOCK: Call.RWLOCK_WRLOCK, Call.RWLOCK_TRYWRLOCK: Call.RWLOCK_WRLOCK, Call.MUTEX_INIT: Call.COND_INIT,
         Call.MUTEX_DESTROY: Call.COND_INIT}


class Passing:
    """Words by which threads pass on what they did to `words`: `relaxed_stores` and `relaxed_loads` are how many of these are relaxed, and
    `twin_share` of the operations are to a word that counts as one with a flag."""

    def passing(self):
        """What passes on by a flag: shared words are stored to before, or one is accessed behind; or what lies between these. In any order now
        and then, and with fences of a thread, or such as are none, at the right place, at a wrong one, or nowhere."""
        how = self.chance.random()
        if how < 0.4:
            parts = [self.plain(True), self.fence(0.6), self.flagged(True), self.fence(0.05)]
        elif how < 0.8:
            parts = [self.fence(0.05), self.flagged(False), self.fence(0.6), self.plain(self.chance.random() < 0.3)]
        else:
            parts = [self.flagged(False), self.fence(0.3), self.flagged(True)]
        if self.chance.random() < 0.1:
            self.chance.shuffle(parts)
        return [word for part in parts for word in part]

    def fence(self, share):
        """Of a thread, mostly."""
        if self.chance.random() > share:
            return []
        return [self.chance.choice(OF_THREADS if self.chance.random() < 0.9 else OF_NO_THREADS)]

    def plain(self, is_store):
        return self.placed(is_store, 2, self.chance.choice(self.words))

    def flagged(self, is_store):
        """An atomic access to a flag, or to the word that counts as one with it."""
        chance = self.chance
        is_relaxed, flag = self.is_relaxed(is_store), chance.choice(FLAGS[:1] * 3 + FLAGS)
        is_twin = chance.random() < self.twin_share
        words = self.placed(is_store, 2, flag, TWIN if is_twin else BASE)
        if is_store:
            words.insert(len(words) - 1, FENCE_W_W if is_relaxed else FENCE_RW_W)
            return words
        return [*words, FENCE_R_R if is_relaxed else FENCE_R_RW]

    def is_relaxed(self, is_store):
        return self.chance.random() < (self.relaxed_stores if is_store else self.relaxed_loads)

    def placed(self, is_store, kind, offset, base=BASE):
        """The last word is the access."""
        before = [load_upper(TWIN, -1), add(TWIN, TWIN, BASE)] if base == TWIN else []
        return [*before, store_form(kind, 4, offset, base) if is_store else immediate_form(0x03, kind, 4, base, offset)]


class Sharer(Passing, Guest):
    """In the place of the log of calls there are accesses to a few words.

    Where locks are there that count as one they are taken and given up whole, by calls that wait.
    """

    def __init__(self, chance):
        self.words, self.parts_share = self.drawn_words(chance)
        self.atomic_share = chance.choice([0, 0.1, 0.5])
        self.relaxed_stores, self.relaxed_loads = chance.choice([0, 0.5, 0.8]), chance.choice([0, 0.5, 0.8])
        self.passing_share = chance.choice([0, 0.1, 0.4])
        self.twin_share = chance.choice([0, 0, 0.3])
        self.has_locks_as_one = chance.random() < 0.3
        super().__init__(chance)

    def drawn_words(self, chance):
        """And how many accesses are to parts of a word alone, besides those that are drawn so anyhow."""
        return chance.sample(SHARED, chance.choice([1, 2, 2, 4])), 0

    def theme_weights(self):
        return {**theme_weights(), **WEIGHTS}

    def mutex(self):
        return self.chance.choice(AS_ONE if self.has_locks_as_one else APART)

    def mutex_operation(self):
        """Mostly what a program does: both calls, and accesses between."""
        mutex, how = self.mutex(), self.chance.random()
        if how < 0.7:
            taken = self.chance.choice([(Call.MUTEX_LOCK, mutex)] * 3 + [(Call.MUTEX_TRYLOCK, mutex), (Call.MUTEX_TIMEDLOCK, mutex, 5, 0)])
            return [taken, *[(Call.SELF,)] * self.chance.choice([0, 1, 2]), (Call.MUTEX_UNLOCK, mutex)]
        return super().mutex_operation()

    def lock_operation(self):
        """The second lock of two counts as the first one, or doesn't."""
        second = 0x5000 if self.has_locks_as_one else self.chance.choice([0x5001, 0x5004])
        return [(number, *[second if address == 0x5000 else address for address in rest])
                for number, *rest in super().lock_operation()]

    def operation(self):
        calls = super().operation()
        if not self.has_locks_as_one:
            return calls
        return [(PLAIN[call[0]], call[1]) if call[0] in PLAIN else call for call in calls]

    def logged(self, number, *arguments):
        """The words of a call, with accesses before and behind it."""
        return [*self.accesses(), *call_words(number, *arguments), *self.accesses()]

    def accesses(self):
        words = [word for _ in range(self.chance.choice([0, 0, 0, 1, 1, 2])) for word in self.access()]
        return words + self.passing() if self.chance.random() < self.passing_share else words

    def access(self):
        chance, is_store = self.chance, self.chance.random() < 0.5
        if self.parts_share and chance.random() < self.parts_share:
            kind = chance.choice(STORES_OF_PARTS if is_store else LOADS_OF_PARTS)
        else:
            kind = chance.choice(STORES if is_store else LOADS)
        length = 1 << (kind & 3)
        offset = chance.choice(self.words) + (chance.randrange(4) & -length)
        words = self.placed(is_store, kind, offset)
        fitting = [FENCE_RW_W, FENCE_W_W] if is_store else [FENCE_R_RW, FENCE_R_R]
        fences = [fitting[self.is_relaxed(is_store)]] * 12 + [FENCE_RW_W, FENCE_R_RW, FENCE_W_W, FENCE_R_R, *OTHER_FENCES]
        if chance.random() < self.atomic_share:
            words.insert(0 if chance.random() < (0.9 if is_store else 0.1) else 1, chance.choice(fences))
        return words


class PartSharer(Sharer):
    """Two of three access mostly bytes and halfwords, and of one word or two."""

    def drawn_words(self, chance):
        share = chance.choice([0, 0.6, 0.9])
        return (chance.sample(SHARED, chance.choice([1, 1, 2])), share) if share else super().drawn_words(chance)
