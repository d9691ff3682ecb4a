/* Thread-specific data: values of each thread's own, and their destructors at its end. */
#include <pthread.h>
#include <stdint.h>
#include <stdio.h>
#include <stdlib.h>
#include <string.h>

enum { THREADS = 6, ROUNDS = 30, DETACHED = 60 };

static pthread_key_t plain, first, second, again, block;
static pthread_mutex_t mutex = PTHREAD_MUTEX_INITIALIZER;
static pthread_cond_t changed = PTHREAD_COND_INITIALIZER;
static int blocks, calls;

static void say_first(void *value) {
    printf("first: %s, %s\n", (char *)value, pthread_getspecific(first) ? "still there" : "gone");
    pthread_setspecific(second, "set by the first");
}

static void say_second(void *value) { printf("second: %s\n", (char *)value); }

static void set_again(void *value) {
    calls++;
    pthread_setspecific(again, value);
}

static void free_block(void *value) {
    free(value);
    pthread_mutex_lock(&mutex);
    blocks--;
    pthread_cond_signal(&changed);
    pthread_mutex_unlock(&mutex);
}

static void say_handler(void *unused) {
    (void)unused;
    puts("handler");
}

static void *with_values(void *unused) {
    (void)unused;
    pthread_setspecific(plain, "nobody is told of it");
    pthread_setspecific(first, "a value");
    pthread_setspecific(again, "always");
    pthread_cleanup_push(say_handler, NULL);
    pthread_exit("ended");
    pthread_cleanup_pop(0);
    return NULL;
}

/* The values go behind the handlers, by rising key; what is set again is taken four times. */
static void ends_with_values(void) {
    pthread_t id;
    void *value;
    pthread_create(&id, NULL, with_values, NULL);
    pthread_join(id, &value);
    printf("%s, %d calls, and here is %s\n", (char *)value, calls, pthread_getspecific(plain) ? "a value" : "none");
}

static void unlock(void *unused) {
    (void)unused;
    pthread_mutex_unlock(&mutex);
}

static void *waits(void *unused) {
    (void)unused;
    pthread_setspecific(second, "of a cancelled thread");
    pthread_mutex_lock(&mutex);
    pthread_cleanup_push(unlock, NULL);
    for (;;) pthread_cond_wait(&changed, &mutex);
    pthread_cleanup_pop(1);
    return NULL;
}

static void is_cancelled(void) {
    pthread_t id;
    void *value;
    pthread_create(&id, NULL, waits, NULL);
    pthread_cancel(id);
    pthread_join(id, &value);
    printf("cancelled: %d\n", value == PTHREAD_CANCELED);
}

static void *own_values(void *number) {
    int wrong = 0;
    for (int i = 1; i <= ROUNDS; i++) {
        pthread_setspecific(plain, (void *)((intptr_t)number + i));
        if (pthread_getspecific(plain) != (void *)((intptr_t)number + i)) wrong++;
    }
    return (void *)(intptr_t)wrong;
}

static void many_at_once(void) {
    pthread_t threads[THREADS];
    for (int i = 0; i < THREADS; i++) pthread_create(&threads[i], NULL, own_values, (void *)(intptr_t)(1000 * i));
    for (int i = 0; i < THREADS; i++) {
        void *wrong;
        pthread_join(threads[i], &wrong);
        printf("thread %d: %d wrong\n", i, (int)(intptr_t)wrong);
    }
}

static void *with_a_block(void *unused) {
    (void)unused;
    pthread_setspecific(block, memset(malloc(4096), 1, 4096));
    return NULL;
}

/* The blocks of all these together are more than the memory. */
static void many_detached(void) {
    for (int i = 0; i < DETACHED; i++) {
        pthread_t id;
        pthread_mutex_lock(&mutex);
        blocks++;
        pthread_create(&id, NULL, with_a_block, NULL);
        pthread_detach(id);
        while (blocks) pthread_cond_wait(&changed, &mutex);
        pthread_mutex_unlock(&mutex);
    }
    puts("all blocks are free");
}

static void *is_deleted(void *unused) {
    (void)unused;
    pthread_setspecific(second, "of a deleted key");
    pthread_key_delete(second);
    printf("deleted: %d\n", pthread_getspecific(second) == NULL);
    return NULL;
}

static void deletes(void) {
    pthread_t id;
    pthread_create(&id, NULL, is_deleted, NULL);
    pthread_join(id, NULL);
    pthread_key_create(&second, say_second);
    printf("made anew: %d\n", pthread_getspecific(second) == NULL);
}

int main(void) {
    pthread_key_create(&plain, NULL);
    pthread_key_create(&first, say_first);
    pthread_key_create(&second, say_second);
    pthread_key_create(&again, set_again);
    pthread_key_create(&block, free_block);
    ends_with_values();
    is_cancelled();
    many_at_once();
    many_detached();
    deletes();
    pthread_setspecific(second, "of the first thread");
    pthread_exit(NULL);
}
