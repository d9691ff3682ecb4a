"""Random programs in C for the kit: threads that access words they share, plainly or in an order, between calls of the C library."""
THREADS = range(2, 4)
WORDS = 3
OF_LOADS, OF_STORES = ["relaxed", "relaxed", "consume", "acquire", "seq_cst"], ["relaxed", "relaxed", "release", "seq_cst"]
OF_BOTH = ["relaxed", "relaxed", "consume", "acquire", "release", "acq_rel", "seq_cst"]
HEAD = """#include <pthread.h>
#include <semaphore.h>
#include <stdatomic.h>
#include <stdio.h>
#include <stdlib.h>
#include <string.h>

static volatile int shared[{words}];
static atomic_int atomic[{words}];
static volatile char text[8] = "text";
static pthread_mutex_t mutex = PTHREAD_MUTEX_INITIALIZER;
static pthread_rwlock_t lock = PTHREAD_RWLOCK_INITIALIZER;
static pthread_barrier_t barrier;
static sem_t semaphore;
static int *volatile handed;

"""
MAIN = """int main(void) {{
    pthread_t threads[{threads}];
    pthread_barrier_init(&barrier, NULL, {threads});
    sem_init(&semaphore, 0, {posted});
{before}{creates}{joins}{behind}    return 0;
}}
"""


class Source:
    """`text` is the program. It ends by itself: each thread comes to the barrier as often as the others, and the semaphore is posted before."""

    def __init__(self, chance):
        self.chance, self.count, self.names = chance, chance.choice(THREADS), 0
        self.rounds = chance.choice([0, 1, 1, 2])
        routines = "".join(self.routine(number) for number in range(self.count))
        creates = "".join(f"    pthread_create(&threads[{number}], NULL, work_{number}, NULL);\n" for number in range(self.count))
        joins = "".join(f"    pthread_join(threads[{number}], NULL);\n" for number in range(self.count))
        main = MAIN.format(threads=self.count, posted=self.count, before=self.block(1), creates=creates, joins=joins, behind=self.block(1))
        self.text = HEAD.format(words=WORDS) + routines + main

    def routine(self, number):
        """The barrier lies between its blocks."""
        blocks = (4 * " " + "pthread_barrier_wait(&barrier);\n").join(self.block(self.chance.choice([2, 3, 5])) for _ in range(self.rounds + 1))
        return f"static void *work_{number}(void *unused) {{\n{blocks}    return unused;\n}}\n\n"

    def block(self, count):
        return "".join(f"    {line}\n" for _ in range(count) for line in self.chance.choice([self.access, self.ordered, self.between, self.guarded])())

    def word(self):
        return self.chance.randrange(WORDS)

    def access(self):
        word, chance = self.word(), self.chance
        return [chance.choice([f"shared[{word}]++;", f"shared[{word}] = {chance.randrange(9)};", f"if (shared[{word}] > 99) exit(1);",
                               f"atomic_fetch_add(&atomic[{word}], 1);", f"atomic_store(&atomic[{word}], shared[{word}]);",
                               f"if (atomic_load(&atomic[{word}]) > 99) shared[{word}] = 0;", f"*(volatile int *)&atomic[{word}] = 1;"])]

    def ordered(self):
        """An atomic operation with an order of its own, and fences of the thread around it now and then."""
        word, chance = self.word(), self.chance
        load, store, both = (f"memory_order_{chance.choice(orders)}" for orders in (OF_LOADS, OF_STORES, OF_BOTH))
        self.names += 1
        expected = f"expected_{self.names}"
        operation = chance.choice([
            [f"atomic_store_explicit(&atomic[{word}], 1, {store});"], [f"shared[{word}] += atomic_load_explicit(&atomic[{word}], {load});"],
            [f"atomic_fetch_add_explicit(&atomic[{word}], 1, {both});"], [f"shared[{word}] += atomic_exchange_explicit(&atomic[{word}], 2, {both});"],
            [f"int {expected} = {chance.randrange(3)};",
             f"atomic_compare_exchange_strong_explicit(&atomic[{word}], &{expected}, 1, {both}, {load});"]])
        before, after = ([self.fence()] if chance.random() < 0.4 else [] for _ in range(2))
        return [*before, *operation, *after]

    def fence(self):
        return f"atomic_thread_fence(memory_order_{self.chance.choice(OF_BOTH)});"

    def between(self):
        """What takes the kit's locks, of which none orders the accesses on both sides."""
        kinds = [self.printed, self.printed, self.own_block, self.own_block, self.handed_block, self.text_changed]
        return self.chance.choice(kinds)()

    def printed(self):
        return [self.chance.choice(['puts("a");', "putchar('b');", 'puts((const char *)text);', 'fputs("", stdout);'])]

    def own_block(self):
        """A block that the thread alone has: where it was another's before, that is of no account."""
        self.names += 1
        name, size = f"own_{self.names}", self.chance.choice([1, 2, 5])
        made = self.chance.choice([f"malloc({4 * size})", f"calloc({size}, 4)"])
        return [f"int *volatile {name} = {made};", f"if ({name}) {name}[{size - 1}] = 1;", *self.access(), f"free({name});"]

    def handed_block(self):
        """One that any thread may have."""
        return [self.chance.choice(["if (!handed) handed = calloc(1, 4);", "if (handed) handed[0]++;", "if (handed) shared[0] += handed[0];"])]

    def text_changed(self):
        return ["text[0] = 't';"]

    def guarded(self):
        """Of these each but the semaphore's orders what is between; that has room for all."""
        ways = [("pthread_mutex_lock(&mutex);", "pthread_mutex_unlock(&mutex);"), ("pthread_rwlock_wrlock(&lock);", "pthread_rwlock_unlock(&lock);"),
                ("pthread_rwlock_rdlock(&lock);", "pthread_rwlock_unlock(&lock);"), ("sem_wait(&semaphore);", "sem_post(&semaphore);")]
        begin, end = self.chance.choice(ways)
        inner = [line for _ in range(self.chance.choice([1, 2])) for line in self.chance.choice([self.access, self.ordered, self.between])()]
        return [begin, *inner, end]


class Heaps(Source):
    """Its threads take blocks, use them and give them back. Some uses are wrong: loads beside a block and of one that was given back, and stores to
    bytes behind its last one that share a word with it. Some blocks are never given back. Branches, addresses and outputs hang on bytes of blocks and of
    frames, some of which were never stored."""

    def block(self, count):
        return "".join(f"    {line}\n" for _ in range(count) for line in self.chance.choice([self.taken, self.taken, self.moved, self.unstored, self.unstored, self.guarded, self.printed])())

    def taken(self):
        self.names += 1
        name, size = f"block_{self.names}", self.chance.choice([1, 2, 3, 5, 6, 8, 13, 31])
        made = self.chance.choice([f"malloc({size})", f"calloc(1, {size})", f"aligned_alloc(32, {size})"])
        return [f"volatile char *volatile {name} = {made};", *self.used(name, size), *self.given_back(name, size)]

    def used(self, name, size):
        """The first and the last byte, and now and then one that isn't the block's."""
        lines, chance = [f"{name}[0] = 1;", f"if ({name}[{size - 1}] > 99) exit(1);"], self.chance
        if chance.random() < 0.3:
            lines.append(f"if ({name}[{chance.choice([-4, -1, size, size + 1, size + 6])}] == 77) exit(1);")
        if chance.random() < 0.3 and size % 4:
            lines.append(f"{name}[{size}] = 1;")
        return lines

    def given_back(self, name, size):
        if self.chance.random() < 0.2:
            return []
        return [f"free((void *){name});", *([f"if ({name}[{self.chance.randrange(size)}] == 77) exit(1);"] if self.chance.random() < 0.3 else [])]

    def moved(self):
        """By `realloc`, to more bytes or to less."""
        self.names += 1
        name, sizes = f"moved_{self.names}", self.chance.choices([1, 4, 7, 12, 30, 60], k=2)
        loads = [f"if ({name}[{sizes[0] - 1}] == 77) exit(1);"] if self.chance.random() < 0.4 else []
        return [f"volatile char *volatile {name} = malloc({sizes[0]});", f"volatile char *volatile {name}_again = realloc((void *){name}, {sizes[1]});",
                *self.used(f"{name}_again", sizes[1]), *loads, *self.given_back(f"{name}_again", sizes[1])]

    def unstored(self):
        """Some bytes are stored; one is used, by itself or in a copy."""
        self.names += 1
        chance, name, size = self.chance, f"unstored_{self.names}", self.chance.choice([4, 5, 8, 12])
        is_block = chance.random() < 0.5
        made = [f"volatile char *volatile {name} = malloc({size});"] if is_block else [f"volatile char {name}[{size}];"]
        stores = [f"{name}[{at}] = {chance.choice([0, 1, 65])};" for at in chance.sample(range(size), 2)]
        copy = [f"char {name}_copy[{size}];", f"memcpy({name}_copy, (void *){name}, {size});"] if chance.random() < 0.4 else []
        byte = f"((volatile char *){name}{'_copy' if copy else ''})[{chance.randrange(size)}]"
        use = chance.choice([f"if ({byte} == 77) shared[0]++;", f"if ({byte} & 4) shared[0]++;", f"shared[{byte} & 1] = 1;", f"putchar({byte} & 1 | 64);", f"shared[0] += {byte};"])
        return [*made, *stores, *copy, use, *([f"free((void *){name});"] if is_block else [])]
