/* Three planted data races, each between the threads `first` and `second` right behind a barrier: on every schedule, whatever is printed. */
#include <pthread.h>
#include <stdio.h>

static pthread_barrier_t barrier;
static pthread_rwlock_t lock = PTHREAD_RWLOCK_INITIALIZER;
static pthread_mutex_t mutex = PTHREAD_MUTEX_INITIALIZER;

static volatile int last;     /* both store it */
static volatile int is_ready; /* one stores it, the other loads it */
static volatile int total;    /* one stores it as a reader of the lock, the other loads it so */
static volatile int sum;      /* under the mutex: no race */

static void add(int by) {
    pthread_mutex_lock(&mutex);
    sum += by;
    pthread_mutex_unlock(&mutex);
}

static void *first(void *unused) {
    (void)unused;
    pthread_barrier_wait(&barrier);
    last = 1;
    is_ready = 1;
    pthread_rwlock_rdlock(&lock);
    total = 10;
    pthread_rwlock_unlock(&lock);
    add(1);
    return NULL;
}

static void *second(void *result) {
    int *seen = result;
    pthread_barrier_wait(&barrier);
    last = 2;
    seen[0] = is_ready;
    pthread_rwlock_rdlock(&lock);
    seen[1] = total;
    pthread_rwlock_unlock(&lock);
    add(2);
    return NULL;
}

int main(void) {
    pthread_t threads[2];
    int seen[2] = {0, 0};
    pthread_barrier_init(&barrier, NULL, 2);
    pthread_create(&threads[0], NULL, first, NULL);
    pthread_create(&threads[1], NULL, second, seen);
    pthread_join(threads[0], NULL);
    pthread_join(threads[1], NULL);
    printf("%d\n", sum + total);
    return seen[0] > 1 || seen[1] > 10;
}
