/* Threads of ISO C: results, values of threads, deadlines, and what two threads hand to each other. */
#include <stdio.h>
#include <threads.h>
#include <time.h>

enum { THREADS = 4, ROUNDS = 25 };

static mtx_t lock, own, again;
static cnd_t moved, never;
static once_flag flag = ONCE_FLAG_INIT;
static tss_t key;
static thread_local int mine;
static int calls, sum, turn, ended;

static const char *name_of(int result) {
    switch (result) {
    case thrd_success: return "success";
    case thrd_busy: return "busy";
    case thrd_error: return "error";
    case thrd_nomem: return "nomem";
    case thrd_timedout: return "timedout";
    default: return "another";
    }
}

static void say(const char *what, int result) { printf("%-28s %s\n", what, name_of(result)); }

static struct timespec in(int seconds, long nanoseconds) {
    struct timespec time = {0, 0};
    if (timespec_get(&time, TIME_UTC) != TIME_UTC) printf("no time\n");
    time.tv_sec += seconds;
    time.tv_nsec += nanoseconds;
    if (time.tv_nsec >= 1000000000) time = in(seconds + 1, 0);
    return time;
}

static void count(void) { calls++; }

/* Values that are left when their threads end, by the destructor. */
static void end(void *value) {
    mtx_lock(&lock);
    ended += *(int *)value;
    mtx_unlock(&lock);
}

static int work(void *number) {
    call_once(&flag, count);
    tss_set(key, number);
    for (mine = 0; mine < ROUNDS; mine++) {
        mtx_lock(&lock);
        sum += *(int *)tss_get(key);
        mtx_unlock(&lock);
        thrd_yield();
    }
    if (*(int *)number % 2) thrd_exit(100 * *(int *)number + mine);
    return -*(int *)number;
}

/* Takes its turn when `turn` is its parity, and hands it on. */
static int plays(void *parity) {
    mtx_lock(&lock);
    for (int i = 0; i < ROUNDS; i++) {
        while (turn % 2 != *(int *)parity) cnd_wait(&moved, &lock);
        turn++;
        cnd_broadcast(&moved);
    }
    mtx_unlock(&lock);
    return turn;
}

static int tries(void *unused) {
    struct timespec soon = in(0, 20000000);
    (void)unused;
    say("another's, try", mtx_trylock(&own));
    say("another's, by a time", mtx_timedlock(&own, &soon));
    return 0;
}

static void threads(void) {
    thrd_t ids[THREADS];
    int numbers[THREADS], result;
    for (int i = 0; i < THREADS; i++) {
        numbers[i] = i;
        say("create", thrd_create(&ids[i], work, &numbers[i]));
    }
    for (int i = 0; i < THREADS; i++) {
        int joined = thrd_join(ids[i], &result);
        printf("thread %d: %s, %d\n", i, name_of(joined), result);
    }
    printf("once %d, sum %d, ended %d, here %d\n", calls, sum, ended, mine);
}

static void mutexes(void) {
    thrd_t id;
    struct timespec late = in(1000, 0);
    say("init, recursive and timed", mtx_init(&again, mtx_timed | mtx_recursive));
    say("lock", mtx_lock(&again));
    say("again", mtx_trylock(&again));
    say("once more", mtx_timedlock(&again, &late));
    for (int i = 0; i < 3; i++) say("unlock", mtx_unlock(&again));
    mtx_destroy(&again);
    say("init, timed", mtx_init(&own, mtx_timed));
    say("lock", mtx_lock(&own));
    thrd_create(&id, tries, NULL);
    thrd_join(id, NULL);
    say("unlock", mtx_unlock(&own));
}

static void conditions(void) {
    thrd_t ids[2];
    int parities[2] = {0, 1};
    struct timespec soon = in(0, 20000000), past = {0, 0};
    for (int i = 0; i < 2; i++) thrd_create(&ids[i], plays, &parities[i]);
    for (int i = 0; i < 2; i++) thrd_join(ids[i], NULL);
    printf("%d turns\n", turn);
    mtx_lock(&lock);
    say("wait, soon", cnd_timedwait(&never, &lock, &soon));
    say("wait, past", cnd_timedwait(&never, &lock, &past));
    say("signal", cnd_signal(&never));
    mtx_unlock(&lock);
}

int main(void) {
    struct timespec little = {0, 1000000}, none = {0, 1000000000}, unchanged = {7, 7};
    int parity = 0;
    thrd_t id;
    say("init", mtx_init(&lock, mtx_plain));
    say("conditions", cnd_init(&moved) == thrd_success ? cnd_init(&never) : thrd_error);
    say("key", tss_create(&key, end));
    threads();
    mutexes();
    conditions();
    thrd_create(&id, plays, &parity);
    say("detach", thrd_detach(id));
    printf("myself: %d, %d\n", thrd_equal(thrd_current(), thrd_current()) != 0, thrd_equal(id, thrd_current()));
    printf("sleep: %d, no duration: %d\n", thrd_sleep(&little, &unchanged), thrd_sleep(&none, NULL) < -1);
    printf("rest %ld, base 9: %d\n", (long)unchanged.tv_sec, timespec_get(&none, 9));
    tss_delete(key);
    cnd_destroy(&never);
    printf("rounds of destructors: %d\n", TSS_DTOR_ITERATIONS);
    return 0;
}
