/* Signals that don't stay pending: where they are ignored, or another one takes them away; and a handler that runs once. */
#define _GNU_SOURCE
#include <pthread.h>
#include <signal.h>
#include <stdio.h>
#include <string.h>

enum { THREADS = 4 };

static volatile sig_atomic_t handled;
static int once;
static pthread_barrier_t barrier;

static void count(int number) {
    (void)number;
    handled++;
}

static void count_once(int number) {
    (void)number;
    __atomic_fetch_add(&once, 1, __ATOMIC_SEQ_CST);
}

static int is_pending(int number) {
    sigset_t set;
    sigpending(&set);
    return sigismember(&set, number);
}

static void mask(int how, int number) {
    sigset_t set;
    sigemptyset(&set);
    sigaddset(&set, number);
    pthread_sigmask(how, &set, NULL);
}

/* Raises a blocked signal, and sets it to something between. */
static void ignore(const char *what, int number, void (*between)(int)) {
    handled = 0;
    signal(number, count);
    mask(SIG_BLOCK, number);
    raise(number);
    printf("%s: pending %d", what, is_pending(number));
    signal(number, between);
    printf(", then %d", is_pending(number));
    signal(number, count);
    mask(SIG_UNBLOCK, number);
    printf(", handled %d\n", (int)handled);
}

static void stops(void) {
    signal(SIGTSTP, count);
    signal(SIGCONT, count);
    mask(SIG_BLOCK, SIGTSTP);
    mask(SIG_BLOCK, SIGCONT);
    handled = 0;
    for (int i = 0; i < 4; i++) {
        raise(i % 2 ? SIGCONT : SIGTSTP);
        printf("stop %d, continue %d\n", is_pending(SIGTSTP), is_pending(SIGCONT));
    }
    mask(SIG_UNBLOCK, SIGTSTP);
    mask(SIG_UNBLOCK, SIGCONT);
    printf("handled %d\n", (int)handled);
}

static void *raises(void *unused) {
    mask(SIG_BLOCK, SIGUSR1);
    raise(SIGUSR1);
    pthread_barrier_wait(&barrier);
    pthread_barrier_wait(&barrier);
    printf("in another thread: pending %d\n", is_pending(SIGUSR1));
    return unused;
}

static void another_thread(void) {
    pthread_t id;
    pthread_barrier_init(&barrier, NULL, 2);
    signal(SIGUSR1, count);
    pthread_create(&id, NULL, raises, NULL);
    pthread_barrier_wait(&barrier);
    signal(SIGUSR1, SIG_IGN);
    signal(SIGUSR1, count);
    pthread_barrier_wait(&barrier);
    pthread_join(id, NULL);
}

static void *raises_once(void *unused) {
    pthread_barrier_wait(&barrier);
    raise(SIGURG);
    return unused;
}

/* All raise at once what has a handler for one time, and is ignored then. */
static void at_once(void) {
    struct sigaction action;
    pthread_t ids[THREADS];
    pthread_barrier_destroy(&barrier);
    pthread_barrier_init(&barrier, NULL, THREADS);
    memset(&action, 0, sizeof action);
    action.sa_handler = count_once;
    action.sa_flags = SA_RESETHAND;
    sigaction(SIGURG, &action, NULL);
    for (int i = 0; i < THREADS; i++) pthread_create(&ids[i], NULL, raises_once, NULL);
    for (int i = 0; i < THREADS; i++) pthread_join(ids[i], NULL);
    printf("of %d one has the handler: %d\n", THREADS, once);
}

/* What isn't blocked isn't pending, whoever of the two is first. */
static void look(int number) {
    (void)number;
    handled += 1 + 10 * (is_pending(SIGUSR1) + is_pending(SIGUSR2));
}

static void in_a_handler(void) {
    handled = 0;
    signal(SIGUSR1, look);
    signal(SIGUSR2, look);
    sigset_t both;
    sigemptyset(&both);
    sigaddset(&both, SIGUSR1);
    sigaddset(&both, SIGUSR2);
    pthread_sigmask(SIG_BLOCK, &both, NULL);
    raise(SIGUSR1);
    raise(SIGUSR2);
    pthread_sigmask(SIG_UNBLOCK, &both, NULL);
    printf("in a handler: %d\n", (int)handled);
}

int main(void) {
    ignore("ignored", SIGUSR1, SIG_IGN);
    ignore("nothing by default", SIGCHLD, SIG_DFL);
    ignore("another handler", SIGUSR1, count_once);
    stops();
    another_thread();
    at_once();
    in_a_handler();
    printf("no signal: %d %d\n", raise(0), pthread_kill(pthread_self(), 0));
    return 0;
}
