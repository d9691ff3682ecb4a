/* Cancellation: where it acts, where it waits, the order of handlers, and what they find. */
#include <pthread.h>
#include <stdint.h>
#include <stdio.h>
#include <time.h>

static pthread_mutex_t mutex = PTHREAD_MUTEX_INITIALIZER;
static pthread_cond_t changed = PTHREAD_COND_INITIALIZER, never = PTHREAD_COND_INITIALIZER;
static int reached;

static void reach(int place) {
    pthread_mutex_lock(&mutex);
    reached = place;
    pthread_cond_broadcast(&changed);
    pthread_mutex_unlock(&mutex);
}

static void wait_for(int place) {
    pthread_mutex_lock(&mutex);
    while (reached != place) pthread_cond_wait(&changed, &mutex);
    pthread_mutex_unlock(&mutex);
}

static void tell(void *name) { printf("handler %s\n", (const char *)name); }

static void unlock(void *locked) {
    printf("the mutex is %s\n", pthread_mutex_trylock(locked) == 0 ? "free" : "locked");
    pthread_mutex_unlock(locked);
}

static void *waits(void *unused) {
    (void)unused;
    pthread_cleanup_push(tell, "outer");
    pthread_cleanup_push(tell, "popped without running");
    pthread_cleanup_pop(0);
    pthread_cleanup_push(tell, "popped");
    pthread_cleanup_pop(1);
    pthread_mutex_lock(&mutex);
    pthread_cleanup_push(unlock, &mutex);
    reached = 1;
    pthread_cond_broadcast(&changed);
    for (;;) pthread_cond_wait(&never, &mutex);
    pthread_cleanup_pop(1);
    pthread_cleanup_pop(1);
    return NULL;
}

static void *sleeps(void *unused) {
    struct timespec long_time = {1000000, 0};
    (void)unused;
    reach(2);
    pthread_cleanup_push(tell, "of the sleeper");
    nanosleep(&long_time, NULL);
    pthread_cleanup_pop(0);
    return NULL;
}

static void *joins(void *id) {
    reach(3);
    pthread_join(*(pthread_t *)id, NULL);
    return NULL;
}

static void *reads(void *unused) {
    (void)unused;
    reach(4);
    return (void *)(intptr_t)getchar();
}

static void *prints(void *unused) {
    (void)unused;
    pthread_cancel(pthread_self());
    flockfile(stdout);
    printf("who prints is not cancelled within a %s\n", "line");
    funlockfile(stdout);
    pthread_testcancel();
    puts("never printed");
    return NULL;
}

static void *loops(void *unused) {
    (void)unused;
    pthread_setcanceltype(PTHREAD_CANCEL_ASYNCHRONOUS, NULL);
    for (volatile int forever = 1; forever;) {}
    return NULL;
}

static void *refuses(void *unused) {
    int old;
    (void)unused;
    pthread_setcancelstate(PTHREAD_CANCEL_DISABLE, &old);
    printf("cancellation was %s\n", old == PTHREAD_CANCEL_ENABLE ? "enabled" : "disabled");
    reach(5);
    wait_for(6);
    pthread_testcancel();
    puts("not cancelled while disabled");
    pthread_setcancelstate(PTHREAD_CANCEL_ENABLE, NULL);
    pthread_testcancel();
    puts("never printed");
    return NULL;
}

static pthread_once_t once = PTHREAD_ONCE_INIT;
static int tries;

static void at_once(void) {
    if (tries++ > 0) return;
    reach(7);
    for (;;) pthread_testcancel();
}

static void *calls_once(void *unused) {
    (void)unused;
    pthread_once(&once, at_once);
    return NULL;
}

static void end(const char *name, pthread_t id) {
    void *value;
    pthread_join(id, &value);
    printf("%s %s\n", name, value == PTHREAD_CANCELED ? "was cancelled" : "returned");
}

static void cancel(const char *name, void *(*start)(void *), int place) {
    pthread_t id;
    pthread_create(&id, NULL, start, NULL);
    if (place) wait_for(place);
    pthread_cancel(id);
    end(name, id);
}

int main(void) {
    pthread_t sleeper, joiner, printer, disabled;
    cancel("who waits", waits, 1);
    pthread_create(&sleeper, NULL, sleeps, NULL);
    wait_for(2);
    pthread_create(&joiner, NULL, joins, &sleeper);
    wait_for(3);
    pthread_cancel(joiner);
    end("who joins", joiner);
    pthread_cancel(sleeper);
    end("who sleeps", sleeper);
    cancel("who reads", reads, 4);
    printf("stdin is %s\n", ftrylockfile(stdin) == 0 ? "free" : "locked");
    funlockfile(stdin);
    pthread_create(&printer, NULL, prints, NULL);
    end("who prints", printer);
    cancel("who loops", loops, 0);
    pthread_create(&disabled, NULL, refuses, NULL);
    wait_for(5);
    pthread_cancel(disabled);
    reach(6);
    end("who refuses", disabled);
    cancel("who calls once", calls_once, 7);
    calls_once(NULL);
    calls_once(NULL);
    printf("the routine ran %d times\n", tries);
    return 0;
}
