/*
 * No data race: each thing that puts accesses in an order has a variable that it alone guards. A thread is created, joined and
 * cancelled; a mutex, a condition, a barrier, a read-write lock, a semaphore, a spin lock, pthread_once and an atomic flag.
 */
#include <pthread.h>
#include <semaphore.h>
#include <stdatomic.h>
#include <stdio.h>

enum { THREADS = 3, ROUNDS = 4 };

static pthread_mutex_t mutex = PTHREAD_MUTEX_INITIALIZER;
static pthread_cond_t condition = PTHREAD_COND_INITIALIZER;
static pthread_barrier_t barrier;
static pthread_rwlock_t rwlock = PTHREAD_RWLOCK_INITIALIZER;
static pthread_spinlock_t spin;
static pthread_once_t once = PTHREAD_ONCE_INIT;
static sem_t semaphore;
static atomic_int is_published;

static int by_mutex, by_condition, is_handed, by_rounds[THREADS], by_writers, by_spin, by_once, by_semaphore, by_flag;
static int by_cancel, by_cleanup, by_create;

static void set_once(void) { by_once = 7; }

static void by_locks(int number) {
    pthread_mutex_lock(&mutex);
    by_mutex++;
    pthread_mutex_unlock(&mutex);
    pthread_spin_lock(&spin);
    by_spin++;
    pthread_spin_unlock(&spin);
    if (number == 0) {
        pthread_rwlock_wrlock(&rwlock);
        by_writers++;
        pthread_rwlock_unlock(&rwlock);
    }
    pthread_rwlock_rdlock(&rwlock);
    if (by_writers > 1) by_rounds[number] = -1;
    pthread_rwlock_unlock(&rwlock);
}

/* In each round a thread changes its own place, and in the next one reads its neighbour's. */
static int by_barrier(int number) {
    int sum = 0;
    for (int round = 0; round < ROUNDS; round++) {
        by_rounds[number] = round + 1;
        pthread_barrier_wait(&barrier);
        sum += by_rounds[(number + 1) % THREADS];
        pthread_barrier_wait(&barrier);
    }
    return sum;
}

static void hand_over(void) {
    by_semaphore = 5;
    sem_post(&semaphore);
    by_flag = 6;
    atomic_store(&is_published, 1);
    pthread_mutex_lock(&mutex);
    by_condition = 8;
    is_handed = 1;
    pthread_cond_broadcast(&condition);
    pthread_mutex_unlock(&mutex);
}

static int take_over(void) {
    int sum = 0;
    sem_wait(&semaphore);
    sum += by_semaphore;
    while (!atomic_load(&is_published)) continue;
    sum += by_flag;
    pthread_mutex_lock(&mutex);
    while (!is_handed) pthread_cond_wait(&condition, &mutex);
    sum += by_condition;
    pthread_mutex_unlock(&mutex);
    return sum;
}

static void *work(void *own) {
    int number = *(int *)own;
    pthread_once(&once, set_once);
    int sum = by_once + by_create;
    by_locks(number);
    sum += by_barrier(number);
    if (number == 0) hand_over();
    if (number == 1) sum += take_over();
    *(int *)own = sum;
    return NULL;
}

static void clean_up(void *unused) {
    (void)unused;
    by_cleanup = by_cancel + 1;
}

static void unlock(void *locked) { pthread_mutex_unlock(locked); }

static void *wait_for_ever(void *unused) {
    pthread_cleanup_push(clean_up, unused);
    pthread_mutex_lock(&mutex);
    pthread_cleanup_push(unlock, &mutex);
    for (;;) pthread_cond_wait(&condition, &mutex);
    pthread_cleanup_pop(1);
    pthread_cleanup_pop(1);
    return NULL;
}

int main(void) {
    pthread_t threads[THREADS], idle;
    int own[THREADS], sum = 0;
    pthread_barrier_init(&barrier, NULL, THREADS);
    pthread_spin_init(&spin, PTHREAD_PROCESS_PRIVATE);
    sem_init(&semaphore, 0, 0);
    by_create = 3;
    pthread_create(&idle, NULL, wait_for_ever, NULL);
    for (int i = 0; i < THREADS; i++) {
        own[i] = i;
        pthread_create(&threads[i], NULL, work, &own[i]);
    }
    for (int i = 0; i < THREADS; i++) {
        pthread_join(threads[i], NULL);
        sum += own[i];
    }
    by_cancel = 4;
    pthread_cancel(idle);
    pthread_join(idle, NULL);
    printf("%d %d %d %d\n", sum, by_mutex, by_spin, by_cleanup);
    return 0;
}
