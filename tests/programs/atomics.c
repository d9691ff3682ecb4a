/* Atomic operations of 1, 2, 4 and 8 bytes and of a larger object, by all the names that the compiler knows. */
#include <pthread.h>
#include <stdatomic.h>
#include <stdint.h>
#include <stdio.h>

enum { THREADS = 4, ROUNDS = 20 };

struct triple {
    int one, two, three;
};

static _Atomic int8_t byte;
static atomic_ushort half;
static atomic_int word;
static _Atomic int64_t both;
static _Atomic struct triple triple;
static atomic_flag flag = ATOMIC_FLAG_INIT;
static int by_flag, by_lock, by_store, taken, sum, lowest = 1000000;
static uint64_t wide = UINT64_C(0xFFFFFFFF);
static volatile int lock;

static void under_flag(void) {
    while (atomic_flag_test_and_set(&flag)) continue;
    by_flag++;
    atomic_flag_clear(&flag);
}

static void under_lock(void) {
    while (__sync_lock_test_and_set(&lock, 1)) continue;
    by_lock++;
    __sync_lock_release(&lock);
}

static void under_plain_store(void) {
    int expected = 0;
    while (!__atomic_compare_exchange_n(&taken, &expected, 1, 0, __ATOMIC_ACQUIRE, __ATOMIC_RELAXED)) expected = 0;
    by_store++;
    __atomic_store_n(&taken, 0, __ATOMIC_RELEASE);
}

static void change_triple(void) {
    struct triple old = atomic_load(&triple), new;
    do new = (struct triple){old.one + 1, old.two + 2, old.three + old.one};
    while (!atomic_compare_exchange_weak(&triple, &old, new));
}

static void lower(int to) {
    int old = __atomic_load_n(&lowest, __ATOMIC_RELAXED);
    while (to < old && !__sync_bool_compare_and_swap(&lowest, old, to)) old = __atomic_load_n(&lowest, __ATOMIC_RELAXED);
}

static void *work(void *number) {
    int own = (int)(intptr_t)number;
    for (int i = 0; i < ROUNDS; i++) {
        byte++;
        half += 3;
        atomic_fetch_sub_explicit(&word, own, memory_order_relaxed);
        both += INT64_C(0x100000001);
        __sync_fetch_and_add(&sum, own);
        __atomic_add_fetch(&wide, 1, __ATOMIC_SEQ_CST);
        change_triple();
        lower(1000 * own + ROUNDS - i);
        under_flag();
        under_lock();
        under_plain_store();
    }
    return NULL;
}

static void one_by_one(void) {
    uint8_t small = 0xF0;
    uint16_t middle = 0x0FF0;
    uint64_t large = 1;
    printf("%d ", __sync_or_and_fetch(&small, 0x0F));
    printf("%d ", __atomic_fetch_nand(&middle, 0x00FF, __ATOMIC_SEQ_CST));
    printf("%d ", middle);
    printf("%d ", __atomic_fetch_xor(&small, 0x55, __ATOMIC_SEQ_CST));
    printf("%d ", __sync_val_compare_and_swap(&small, 0xAA, 7));
    printf("%d ", (int)__sync_lock_test_and_set(&large, 9));
    printf("%d ", (int)__atomic_exchange_n(&large, 11, __ATOMIC_SEQ_CST));
    printf("%d %d\n", (int)__sync_sub_and_fetch(&large, 1), small);
    __sync_synchronize();
    atomic_thread_fence(memory_order_seq_cst);
}

int main(void) {
    pthread_t threads[THREADS];
    one_by_one();
    for (int i = 0; i < THREADS; i++) pthread_create(&threads[i], NULL, work, (void *)(intptr_t)(i + 1));
    for (int i = 0; i < THREADS; i++) pthread_join(threads[i], NULL);
    struct triple last = atomic_load(&triple);
    printf("bytes %d %d %d %llx\n", byte, half, word, (unsigned long long)both);
    printf("sum %d, wide %llx, lowest %d\n", sum, (unsigned long long)wide, lowest);
    printf("triple %d %d %d, guarded %d %d %d\n", last.one, last.two, last.three, by_flag, by_lock, by_store);
    return 0;
}
