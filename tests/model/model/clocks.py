"""Vector clocks: what each thread has seen of each other one's doings, which are counted in epochs."""
from model.orders import PLACES
from model.threads import THREAD_IDS


def join(clock, other):
    """Of each thread the later epoch."""
    for number, epoch in other.items():
        clock[number] = max(clock.get(number, 0), epoch)


class Clocks:
    """By thread, and by what stands between threads (a holder): up to which epoch of each thread its doings are seen.

    A thread begins a new epoch with all that it hands on, so what it does then isn't seen by who got that.
    """

    def __init__(self):
        self.threads = {number: {number: 1} for number in THREAD_IDS}
        self.holders = {}
        self.fenced = {number: {} for number in THREAD_IDS}  # what each thread had seen by its last fence
        self.found = {number: {} for number in THREAD_IDS}  # what its relaxed loads have found, for its next fence

    def epoch(self, thread_id):
        return self.threads[thread_id][thread_id]

    def has_seen(self, thread_id, other_id, epoch):
        return self.threads[thread_id].get(other_id, 0) >= epoch

    def give(self, thread_id, holder):
        join(self.holders.setdefault(holder, {}), self.threads[thread_id])
        self.threads[thread_id][thread_id] += 1

    def take(self, thread_id, holder):
        join(self.threads[thread_id], self.holders.get(holder, {}))

    def holder_of(self, word):
        """Words of atomic operations that count as one have one."""
        return "word", word % PLACES

    def store(self, thread_id, word, is_ordering):
        """An atomic one. A relaxed one gives up what the thread had seen by its last fence, so not what it did since."""
        given = self.threads if is_ordering else self.fenced
        join(self.holders.setdefault(self.holder_of(word), {}), given[thread_id])
        self.threads[thread_id][thread_id] += 1

    def load(self, thread_id, word, is_ordering):
        """An atomic one. What a relaxed one finds, which was given up by then, the next fence takes."""
        taking = self.threads if is_ordering else self.found
        join(taking[thread_id], self.holders.get(self.holder_of(word), {}))

    def fence(self, thread_id):
        """First it takes, so that what it took is given up, too."""
        join(self.threads[thread_id], self.found[thread_id])
        self.fenced[thread_id] = dict(self.threads[thread_id])
        self.threads[thread_id][thread_id] += 1

    def lead(self, thread_id, other_id):
        """From one thread to another directly."""
        join(self.threads[other_id], self.threads[thread_id])
        self.threads[thread_id][thread_id] += 1

    def meet(self, thread_ids):
        """All of them see what each has done."""
        seen = {}
        for number in thread_ids:
            join(seen, self.threads[number])
        for number in thread_ids:
            join(self.threads[number], seen)
            self.threads[number][number] += 1
