/*
 * No data race: orders of atomic operations and fences, as C11 has them (7.17.3 and 7.17.4). Each variable is set by one thread,
 * and told to the other by a flag of its own: from a fence or a store that releases to a fence or a load that acquires. Between
 * lies one relaxed operation at least, but for a lock, which is taken by an exchange that acquires only where it succeeds. What a
 * store gave up goes on by relaxed operations that load and store. The last of those who count down by releases has a fence before
 * it reads what all of them set. Without the fences of the flags, by another FENCE, three variables are raced for.
 */
#include <pthread.h>
#include <stdatomic.h>
#include <stdio.h>

#ifndef FENCE
#define FENCE(order) atomic_thread_fence(order)
#endif

enum { THREADS = 3, ROUNDS = 5 };

static atomic_int by_fences, by_fence_and_load, by_store_and_fence, by_sequence, lock, left = THREADS;
static int fenced, loaded, stored, sequenced, locked, parts[THREADS], sum;

static void wait_for(atomic_int *flag, int value, memory_order order) {
    while (atomic_load_explicit(flag, order) != value) continue;
}

static void set_all(void) {
    fenced = 1;
    FENCE(memory_order_release);
    atomic_store_explicit(&by_fences, 1, memory_order_relaxed);
    loaded = 2;
    FENCE(memory_order_acq_rel);
    atomic_store_explicit(&by_fence_and_load, 1, memory_order_relaxed);
    stored = 3;
    atomic_store_explicit(&by_store_and_fence, 1, memory_order_release);
    sequenced = 4;
    atomic_store_explicit(&by_sequence, 1, memory_order_release);
}

static void go_between(void) {
    wait_for(&by_sequence, 1, memory_order_relaxed);
    atomic_fetch_add_explicit(&by_sequence, 1, memory_order_relaxed);
}

static void get_all(void) {
    wait_for(&by_fences, 1, memory_order_relaxed);
    FENCE(memory_order_acquire);
    sum += fenced;
    wait_for(&by_fence_and_load, 1, memory_order_acquire);
    sum += loaded;
    wait_for(&by_store_and_fence, 1, memory_order_relaxed);
    FENCE(memory_order_seq_cst);
    sum += stored;
    wait_for(&by_sequence, 2, memory_order_consume);
    sum += sequenced;
}

static void count(void) {
    for (int round = 0; round < ROUNDS; round++) {
        int open = 0;
        while (!atomic_compare_exchange_weak_explicit(&lock, &open, 1, memory_order_acquire, memory_order_relaxed)) open = 0;
        locked++;
        atomic_store_explicit(&lock, 0, memory_order_release);
    }
}

static void *work(void *number) {
    static void (*const works[THREADS])(void) = {set_all, get_all, go_between};
    int own = *(int *)number;
    works[own]();
    count();
    parts[own] = own + 1;
    if (atomic_fetch_sub_explicit(&left, 1, memory_order_release) == 1) {
        atomic_thread_fence(memory_order_acquire);
        for (int other = 0; other < THREADS; other++) sum += parts[other];
        sum += locked;
    }
    return NULL;
}

int main(void) {
    static int numbers[THREADS] = {0, 1, 2};
    pthread_t threads[THREADS];
    for (int i = 0; i < THREADS; i++) pthread_create(&threads[i], NULL, work, &numbers[i]);
    for (int i = 0; i < THREADS; i++) pthread_join(threads[i], NULL);
    printf("%d\n", sum);
    return 0;
}
