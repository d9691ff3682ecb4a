"""What would be seen if a rule about memory orders were another one: so it is known how often each makes a difference."""
from model.clocks import Clocks, join

LOADS_ORDER = "a race behind a relaxed load"
STORES_ORDER = "a race behind a relaxed store"
BEFORE_STORES = "an order by a fence before a relaxed store"
BEHIND_LOADS = "an order by a fence behind a relaxed load"
BOTH_SIDES = "an order by fences on both sides"
STAYS = "an order by what stays behind a relaxed store"
GIVEN_LATER = "a race by what is given up behind a relaxed load"
AS_ONE = "an order by another word at an equal place"


class LoadsAcquire(Clocks):
    """Relaxed ones, too."""

    def load(self, thread_id, word, is_ordering):
        super().load(thread_id, word, True)


class StoresRelease(Clocks):
    def store(self, thread_id, word, is_ordering):
        super().store(thread_id, word, True)


class FencesGiveNothing(Clocks):
    def fence(self, thread_id):
        super().fence(thread_id)
        self.fenced[thread_id] = {}


class FencesTakeNothing(Clocks):
    def load(self, thread_id, word, is_ordering):
        if is_ordering:
            super().load(thread_id, word, True)


class StoresEnd(Clocks):
    """A relaxed one takes the place of what was given up before."""

    def store(self, thread_id, word, is_ordering):
        if not is_ordering:
            self.holders.pop(self.holder_of(word), None)
        super().store(thread_id, word, is_ordering)


class FencesTakeLater(Clocks):
    """What was given up by then to each word that a relaxed load has loaded, be it behind the load."""

    def __init__(self):
        super().__init__()
        self.loaded = {}

    def load(self, thread_id, word, is_ordering):
        super().load(thread_id, word, is_ordering)
        if not is_ordering:
            self.loaded.setdefault(thread_id, set()).add(self.holder_of(word))

    def fence(self, thread_id):
        for holder in self.loaded.get(thread_id, ()):
            join(self.found[thread_id], self.holders.get(holder, {}))
        super().fence(thread_id)


class WordsApart(Clocks):
    def holder_of(self, word):
        return "word", word


OTHERS = {LOADS_ORDER: LoadsAcquire, STORES_ORDER: StoresRelease, BEFORE_STORES: FencesGiveNothing, BEHIND_LOADS: FencesTakeNothing,
          STAYS: StoresEnd, GIVEN_LATER: FencesTakeLater, AS_ONE: WordsApart}


class Watched:
    """Clocks, and others by these rules. All begin epochs with the same doings, so an epoch of one is that of each."""

    def __init__(self):
        self.clocks, self.others = Clocks(), {rule: made() for rule, made in OTHERS.items()}

    def __getattr__(self, name):
        """What is done to one is done to all."""
        def do(*words):
            for clocks in (self.clocks, *self.others.values()):
                getattr(clocks, name)(*words)
        return do

    def epoch(self, thread_id):
        return self.clocks.epoch(thread_id)

    def has_seen(self, *doing):
        return self.clocks.has_seen(*doing)

    def unlike(self, *doing):
        """By which rules it is seen though it isn't, or the other way round; an order that takes both fences is no other one's."""
        rules = {rule for rule, clocks in self.others.items() if clocks.has_seen(*doing) != self.has_seen(*doing)}
        both = {BEFORE_STORES, BEHIND_LOADS}
        return rules - both | {BOTH_SIDES} if both <= rules else rules
