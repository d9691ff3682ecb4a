/*
 * No data race: flags that are looked at by atomic loads alone, and plain accesses that something orders beside the atomic ones of
 * the same word, as a mutex, a join, the creation of a thread, or an atomic store that an atomic load read.
 */
#include <pthread.h>
#include <semaphore.h>
#include <stdatomic.h>
#include <stdint.h>
#include <stdio.h>
#include <stdlib.h>

enum { ROUNDS = 5 };

struct message {
    int number;
    struct message *next;
};

static pthread_mutex_t mutex = PTHREAD_MUTEX_INITIALIZER;
static atomic_int stop, is_made;
static int made;
static int count;                /* atomically by two threads, plainly before they begin and when they are joined */
static int guarded;              /* atomically and plainly, under the mutex */
static struct message *_Atomic posted; /* each message is stored plainly before it is posted, and again when it was taken */
static unsigned place;           /* plainly before the threads begin, and by the one that an atomic store handed it over to */
static sem_t semaphore;

/* A lock that is checked twice, each time by an atomic load. */
static void make_once(void) {
    if (atomic_load_explicit(&is_made, memory_order_acquire)) return;
    pthread_mutex_lock(&mutex);
    if (!atomic_load_explicit(&is_made, memory_order_relaxed)) {
        made++;
        atomic_store_explicit(&is_made, 1, memory_order_release);
    }
    pthread_mutex_unlock(&mutex);
}

static void under_mutex(void) {
    pthread_mutex_lock(&mutex);
    guarded++;
    __atomic_store_n(&guarded, guarded + 1, __ATOMIC_RELAXED);
    __atomic_fetch_sub(&guarded, 1, __ATOMIC_RELAXED);
    pthread_mutex_unlock(&mutex);
}

static void post(int number) {
    struct message *message = malloc(sizeof *message);
    message->number = number;
    message->next = atomic_load(&posted);
    while (!atomic_compare_exchange_weak(&posted, &message->next, message)) continue;
    sem_post(&semaphore);
}

static int take(void) {
    struct message *message = atomic_exchange(&posted, NULL);
    int sum = 0;
    while (message != NULL) {
        struct message *next = message->next;
        sum += message->number;
        message->number = 0;
        free(message);
        message = next;
    }
    return sum;
}

static void *first(void *unused) {
    make_once();
    __atomic_store_n(&place, 4, __ATOMIC_RELEASE);
    for (int i = 0; i < ROUNDS; i++) {
        __atomic_fetch_add(&count, 1, __ATOMIC_RELAXED);
        under_mutex();
        post(i);
    }
    atomic_store(&stop, 1);
    return unused;
}

static void *second(void *unused) {
    int sum = 0, value = 0;
    make_once();
    while (__atomic_load_n(&place, __ATOMIC_ACQUIRE) != 4) continue;
    place = 5;
    while (!atomic_load(&stop)) {
        __atomic_fetch_add(&count, 1, __ATOMIC_RELAXED);
        under_mutex();
        sum += take();
        sem_getvalue(&semaphore, &value);
        sem_trywait(&semaphore);
    }
    sum += take();
    return (void *)(intptr_t)(sum + (made == 1 && place == 5 && value >= 0 ? 0 : 1000) + (unused != NULL));
}

int main(void) {
    pthread_t threads[2];
    void *sum;
    sem_init(&semaphore, 0, 0);
    count = 100;
    place = 3;
    pthread_create(&threads[0], NULL, first, NULL);
    pthread_create(&threads[1], NULL, second, NULL);
    pthread_join(threads[0], NULL);
    pthread_join(threads[1], &sum);
    count -= 100;
    printf("%d %d %d\n", made, count >= ROUNDS && guarded == count, (int)(intptr_t)sum);
    return 0;
}
