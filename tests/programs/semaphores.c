/* Semaphores and spin locks: counts, errors, deadlines, and what a cancelled thread leaves. */
#include <errno.h>
#include <pthread.h>
#include <sched.h>
#include <semaphore.h>
#include <stdio.h>
#include <time.h>

enum { THREADS = 5, ROUNDS = 30, AT_ONCE = 2 };

static sem_t places, never;
static pthread_spinlock_t lock;
static int inside, most, passed;

static const char *name_of(int result) {
    if (result == 0) return "0";
    return errno == EAGAIN ? "EAGAIN" : errno == ETIMEDOUT ? "ETIMEDOUT" : errno == EINVAL ? "EINVAL" : "another";
}

static void enter(int by) {
    pthread_spin_lock(&lock);
    inside += by;
    if (inside > most) most = inside;
    if (by > 0) passed++;
    pthread_spin_unlock(&lock);
}

static void *work(void *unused) {
    for (int i = 0; i < ROUNDS; i++) {
        sem_wait(&places);
        enter(1);
        sched_yield();
        enter(-1);
        sem_post(&places);
    }
    return unused;
}

static void *waits(void *unused) {
    sem_wait(&never);
    return unused;
}

/* Two threads hand one word to each other, each by its own semaphore. */
static sem_t ping, pong;
static int ball;

static void *returns(void *unused) {
    for (int i = 0; i < ROUNDS; i++) {
        sem_wait(&ping);
        ball = 2 * ball + 1;
        sem_post(&pong);
    }
    return unused;
}

static void play(void) {
    pthread_t other;
    sem_init(&ping, 0, 0);
    sem_init(&pong, 0, 0);
    pthread_create(&other, NULL, returns, NULL);
    for (int i = 0; i < ROUNDS; i++) {
        ball %= 1000;
        sem_post(&ping);
        sem_wait(&pong);
    }
    pthread_join(other, NULL);
    printf("the ball is %d\n", ball);
}

int main(void) {
    pthread_t threads[THREADS];
    struct timespec past = {0, 0}, none = {0, 1000000000}, soon;
    void *value;
    int count;
    sem_init(&places, 0, AT_ONCE);
    sem_init(&never, 0, 0);
    printf("init: %d\n", pthread_spin_init(&lock, PTHREAD_PROCESS_PRIVATE));
    for (int i = 0; i < THREADS; i++) pthread_create(&threads[i], NULL, work, NULL);
    for (int i = 0; i < THREADS; i++) pthread_join(threads[i], NULL);
    sem_getvalue(&places, &count);
    printf("%d have passed, %s, and %d places are free\n", passed, most <= AT_ONCE ? "two at once at most" : "too many", count);

    printf("try: %s\n", name_of(sem_trywait(&places)));
    printf("try: %s\n", name_of(sem_trywait(&places)));
    printf("try: %s\n", name_of(sem_trywait(&places)));
    printf("past: %s\n", name_of(sem_timedwait(&places, &past)));
    printf("no time: %s\n", name_of(sem_timedwait(&places, &none)));
    clock_gettime(CLOCK_REALTIME, &soon);
    soon.tv_sec++;
    sem_post(&places);
    printf("soon: %s\n", name_of(sem_timedwait(&places, &soon)));
    printf("too many: %s\n", name_of(sem_init(&places, 0, 4000000000u)));

    pthread_create(&threads[0], NULL, waits, NULL);
    pthread_cancel(threads[0]);
    pthread_join(threads[0], &value);
    printf("who waits %s\n", value == PTHREAD_CANCELED ? "was cancelled" : "returned");
    printf("destroy: %s\n", name_of(sem_destroy(&never)));
    printf("spin: %d\n", pthread_spin_trylock(&lock));
    printf("spin: %s\n", pthread_spin_trylock(&lock) == EBUSY ? "EBUSY" : "another");
    pthread_spin_unlock(&lock);
    pthread_spin_destroy(&lock);
    play();
    return 0;
}
