/* A pool of threads that count primes. When the work is done the workers are cancelled where they wait for more. */
#include <pthread.h>
#include <stdio.h>

enum { WORKERS = 4, JOBS = 12, SPAN = 50 };

static pthread_mutex_t mutex = PTHREAD_MUTEX_INITIALIZER;
static pthread_cond_t has_job = PTHREAD_COND_INITIALIZER, is_done = PTHREAD_COND_INITIALIZER;
static int submitted, taken, done, primes[JOBS];

static int is_prime(int number) {
    if (number < 2) return 0;
    for (int divisor = 2; divisor * divisor <= number; divisor++) {
        if (number % divisor == 0) return 0;
    }
    return 1;
}

static int primes_of(int job) {
    int count = 0;
    for (int number = job * SPAN; number < (job + 1) * SPAN; number++) count += is_prime(number);
    return count;
}

/* The mutex is the thread's when its handlers run, also where it was cancelled in its wait. */
static void unlock(void *locked) { pthread_mutex_unlock(locked); }

static int take_job(void) {
    int job;
    pthread_mutex_lock(&mutex);
    pthread_cleanup_push(unlock, &mutex);
    while (taken == submitted) pthread_cond_wait(&has_job, &mutex);
    job = taken++;
    pthread_cleanup_pop(1);
    return job;
}

static void *worker(void *unused) {
    (void)unused;
    for (;;) {
        int job = take_job(), count = primes_of(job);
        pthread_mutex_lock(&mutex);
        primes[job] = count;
        if (++done == JOBS) pthread_cond_signal(&is_done);
        pthread_mutex_unlock(&mutex);
    }
    return NULL;
}

int main(void) {
    pthread_t workers[WORKERS];
    for (int i = 0; i < WORKERS; i++) pthread_create(&workers[i], NULL, worker, NULL);
    for (int job = 0; job < JOBS; job++) {
        pthread_mutex_lock(&mutex);
        submitted++;
        pthread_cond_signal(&has_job);
        pthread_mutex_unlock(&mutex);
    }
    pthread_mutex_lock(&mutex);
    while (done < JOBS) pthread_cond_wait(&is_done, &mutex);
    pthread_mutex_unlock(&mutex);

    for (int i = 0; i < WORKERS; i++) pthread_cancel(workers[i]);
    for (int i = 0; i < WORKERS; i++) {
        void *value;
        pthread_join(workers[i], &value);
        printf("worker %d %s\n", i, value == PTHREAD_CANCELED ? "was cancelled" : "returned");
    }
    for (int job = 0; job < JOBS; job++) printf("%d primes from %d on\n", primes[job], job * SPAN);
    printf("the mutex is %s\n", pthread_mutex_trylock(&mutex) == 0 ? "free" : "locked");
    return 0;
}
