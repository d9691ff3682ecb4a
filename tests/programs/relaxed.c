/*
 * Five planted races: what one thread sets is told to another by an atomic object, but one of the two has no order for it. The
 * first stands between two relaxed operations, the second behind a load that doesn't acquire, the third before a store that doesn't
 * release, the fourth between operations that load and store, and the fifth before a fence with none on the other side.
 */
#include <pthread.h>
#include <stdatomic.h>
#include <stdio.h>

static atomic_int is_first, is_second, is_third, is_fourth, is_fifth;
static int first, second, third, fourth, fifth;

static void *set(void *unused) {
    (void)unused;
    first = 1;
    atomic_store_explicit(&is_first, 1, memory_order_relaxed);
    second = 2;
    atomic_store_explicit(&is_second, 1, memory_order_release);
    third = 3;
    atomic_store_explicit(&is_third, 1, memory_order_relaxed);
    fourth = 4;
    atomic_fetch_add_explicit(&is_fourth, 1, memory_order_relaxed);
    fifth = 5;
    atomic_thread_fence(memory_order_release);
    atomic_store_explicit(&is_fifth, 1, memory_order_relaxed);
    return NULL;
}

static void wait_for(atomic_int *flag, memory_order order) {
    while (!atomic_load_explicit(flag, order)) continue;
}

static void *get(void *sum) {
    int *seen = sum;
    wait_for(&is_first, memory_order_relaxed);
    *seen += first;
    wait_for(&is_second, memory_order_relaxed);
    *seen += second;
    wait_for(&is_third, memory_order_acquire);
    *seen += third;
    while (!atomic_fetch_add_explicit(&is_fourth, 0, memory_order_relaxed)) continue;
    *seen += fourth;
    wait_for(&is_fifth, memory_order_relaxed);
    *seen += fifth;
    return NULL;
}

int main(void) {
    pthread_t threads[2];
    int sum = 0;
    pthread_create(&threads[0], NULL, set, NULL);
    pthread_create(&threads[1], NULL, get, &sum);
    pthread_join(threads[0], NULL);
    pthread_join(threads[1], NULL);
    printf("%d\n", sum);
    return 0;
}
