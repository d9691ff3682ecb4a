/*
 * Atomic operations, by the calls that the compiler makes of <stdatomic.h>, __atomic_.. and __sync_... Plain RV32I has
 * no instruction that loads and stores in one step, so one lock of the kit lies around each. A load of up to four bytes
 * is one step of a sequentially consistent memory and needs none; a store does, as it mustn't come between another
 * call's load and store.
 */
#include "fenced.h"
#include "locks.h"
#include <stdbool.h>
#include <stddef.h>
#include <stdint.h>
#include <string.h>

static void lock(void) { __guest_take_lock(&__guest_atomic_lock); }
static void unlock(void) { __guest_leave_lock(&__guest_atomic_lock); }

/* Whether an operation's load takes what others gave up, and whether its store gives up what its thread has done (C11, 7.17.3).
   memory_order_consume is taken for memory_order_acquire. */
static bool acquires(int order) { return order != __ATOMIC_RELAXED && order != __ATOMIC_RELEASE; }
static bool releases(int order) { return order != __ATOMIC_RELAXED && order != __ATOMIC_CONSUME && order != __ATOMIC_ACQUIRE; }

/* Each step of an atomic load or store stands beside a fence, which has its order: see fenced.h. So the object itself orders what
   threads do, and not the lock. Of eight bytes there are two. */
#define ACCESSES(bytes, type, name)                                                                                   \
    static type get##bytes(const volatile type *place, int order) {                                                   \
        return acquires(order) ? load_##name(place) : load_##name##_relaxed(place);                                   \
    }                                                                                                                 \
    static void put##bytes(volatile type *place, type value, int order) {                                             \
        if (releases(order)) store_##name(place, value);                                                              \
        else store_##name##_relaxed(place, value);                                                                    \
    }

ACCESSES(1, uint8_t, byte)
ACCESSES(2, uint16_t, half)
ACCESSES(4, uint32_t, word)

static uint64_t get8(const volatile uint64_t *place, int order) {
    const volatile uint32_t *words = (const volatile uint32_t *)place;
    uint32_t low = get4(&words[0], order);
    return low | (uint64_t)get4(&words[1], order) << 32;
}

static void put8(volatile uint64_t *place, uint64_t value, int order) {
    volatile uint32_t *words = (volatile uint32_t *)place;
    put4(&words[0], (uint32_t)value, order);
    put4(&words[1], (uint32_t)(value >> 32), order);
}

/* One function under the name of the compiler's call, which C knows with another type. */
#define CALL(name) __asm__(#name)

/* __atomic_NAME_BYTES and __sync_NAME_BYTES, each with what it makes of the old value. */
#define CHANGE(bytes, type, name, new_value)                                                                          \
    type fetch_##name##bytes(volatile type *place, type by, int order) CALL(__atomic_fetch_##name##_##bytes);         \
    type fetch_##name##bytes(volatile type *place, type by, int order) {                                              \
        lock();                                                                                                       \
        type old = get##bytes(place, order);                                                                          \
        put##bytes(place, (type)(new_value), order);                                                                  \
        unlock();                                                                                                     \
        return old;                                                                                                   \
    }                                                                                                                 \
    type name##_fetch##bytes(volatile type *place, type by, int order) CALL(__atomic_##name##_fetch_##bytes);         \
    type name##_fetch##bytes(volatile type *place, type by, int order) {                                              \
        type old = fetch_##name##bytes(place, by, order);                                                             \
        return (type)(new_value);                                                                                     \
    }                                                                                                                 \
    type sync_fetch_##name##bytes(volatile type *place, type by) CALL(__sync_fetch_and_##name##_##bytes);             \
    type sync_fetch_##name##bytes(volatile type *place, type by) {                                                    \
        return fetch_##name##bytes(place, by, __ATOMIC_SEQ_CST);                                                      \
    }                                                                                                                 \
    type sync_##name##_fetch##bytes(volatile type *place, type by) CALL(__sync_##name##_and_fetch_##bytes);           \
    type sync_##name##_fetch##bytes(volatile type *place, type by) {                                                  \
        return name##_fetch##bytes(place, by, __ATOMIC_SEQ_CST);                                                      \
    }

/* Of those that compare, `expected` is read before and written only where they differ: once the new value is stored, what it
   points to may be another thread's. Which of its two orders an operation has is known once it has loaded: so a load that is to
   acquire is made again, under the lock. */
#define OPERATIONS(bytes, type, loading)                                                                              \
    type load##bytes(const volatile type *place, int order) CALL(__atomic_load_##bytes);                              \
    type load##bytes(const volatile type *place, int order) {                                                         \
        loading                                                                                                       \
    }                                                                                                                 \
    void store##bytes(volatile type *place, type value, int order) CALL(__atomic_store_##bytes);                      \
    void store##bytes(volatile type *place, type value, int order) {                                                  \
        lock();                                                                                                       \
        put##bytes(place, value, order);                                                                              \
        unlock();                                                                                                     \
    }                                                                                                                 \
    type exchange##bytes(volatile type *place, type value, int order) CALL(__atomic_exchange_##bytes);                \
    type exchange##bytes(volatile type *place, type value, int order) {                                               \
        lock();                                                                                                       \
        type old = get##bytes(place, order);                                                                          \
        put##bytes(place, value, order);                                                                              \
        unlock();                                                                                                     \
        return old;                                                                                                   \
    }                                                                                                                 \
    type sync_exchange##bytes(volatile type *place, type value) CALL(__sync_lock_test_and_set_##bytes);               \
    type sync_exchange##bytes(volatile type *place, type value) {                                                     \
        return exchange##bytes(place, value, __ATOMIC_ACQUIRE);                                                       \
    }                                                                                                                 \
    static type swap##bytes(volatile type *place, type expected, type value, int order, int other) {                  \
        lock();                                                                                                       \
        type old = get##bytes(place, __ATOMIC_RELAXED);                                                               \
        if (acquires(old == expected ? order : other)) (void)get##bytes(place, __ATOMIC_ACQUIRE);                     \
        if (old == expected) put##bytes(place, value, order);                                                         \
        unlock();                                                                                                     \
        return old;                                                                                                   \
    }                                                                                                                 \
    type sync_compare##bytes(volatile type *place, type expected, type value)                                         \
        CALL(__sync_val_compare_and_swap_##bytes);                                                                    \
    type sync_compare##bytes(volatile type *place, type expected, type value) {                                       \
        return swap##bytes(place, expected, value, __ATOMIC_SEQ_CST, __ATOMIC_SEQ_CST);                               \
    }                                                                                                                 \
    bool sync_is_swapped##bytes(volatile type *place, type expected, type value)                                      \
        CALL(__sync_bool_compare_and_swap_##bytes);                                                                   \
    bool sync_is_swapped##bytes(volatile type *place, type expected, type value) {                                    \
        return sync_compare##bytes(place, expected, value) == expected;                                               \
    }                                                                                                                 \
    bool compare##bytes(volatile type *place, type *expected, type value, int order, int other)                       \
        CALL(__atomic_compare_exchange_##bytes);                                                                      \
    bool compare##bytes(volatile type *place, type *expected, type value, int order, int other) {                     \
        type wanted = *expected;                                                                                      \
        type old = swap##bytes(place, wanted, value, order, other);                                                   \
        if (old != wanted) *expected = old;                                                                           \
        return old == wanted;                                                                                         \
    }                                                                                                                 \
    CHANGE(bytes, type, add, old + by)                                                                                \
    CHANGE(bytes, type, sub, old - by)                                                                                \
    CHANGE(bytes, type, and, old & by)                                                                                \
    CHANGE(bytes, type, or, old | by)                                                                                 \
    CHANGE(bytes, type, xor, old ^ by)                                                                                \
    CHANGE(bytes, type, nand, ~(old & by))

#define UNDER_THE_LOCK                                                                                                \
    lock();                                                                                                           \
    uint64_t value = get8(place, order);                                                                              \
    unlock();                                                                                                         \
    return value;

OPERATIONS(1, uint8_t, return get1(place, order);)
OPERATIONS(2, uint16_t, return get2(place, order);)
OPERATIONS(4, uint32_t, return get4(place, order);)
OPERATIONS(8, uint64_t, UNDER_THE_LOCK)

/* --- Objects of any size ------------------------------------------------------------------------------------------ */

/* The first byte stands beside a fence, and the others are told by no lock. */
static void get(void *to, const void *place, size_t size, int order) {
    if (size == 0) return;
    *(uint8_t *)to = get1(place, order);
    memcpy((char *)to + 1, (const char *)place + 1, size - 1);
}

static void put(void *place, const void *from, size_t size, int order) {
    if (size == 0) return;
    memcpy((char *)place + 1, (const char *)from + 1, size - 1);
    put1(place, *(const uint8_t *)from, order);
}

void load_any(size_t size, const void *place, void *to, int order) CALL(__atomic_load);
void load_any(size_t size, const void *place, void *to, int order) {
    lock();
    get(to, place, size, order);
    unlock();
}

void store_any(size_t size, void *place, const void *from, int order) CALL(__atomic_store);
void store_any(size_t size, void *place, const void *from, int order) {
    lock();
    put(place, from, size, order);
    unlock();
}

void exchange_any(size_t size, void *place, const void *from, void *to, int order) CALL(__atomic_exchange);
void exchange_any(size_t size, void *place, const void *from, void *to, int order) {
    lock();
    get(to, place, size, order);
    put(place, from, size, order);
    unlock();
}

static bool is_there(const void *place, const void *expected, size_t size) {
    if (size == 0) return true;
    return get1(place, __ATOMIC_RELAXED) == *(const uint8_t *)expected && memcmp(place, expected, size) == 0;
}

bool compare_any(size_t size, void *place, void *expected, const void *from, int order, int other)
    CALL(__atomic_compare_exchange);
bool compare_any(size_t size, void *place, void *expected, const void *from, int order, int other) {
    lock();
    bool is_equal = is_there(place, expected, size);
    if (size != 0 && acquires(is_equal ? order : other)) (void)get1(place, __ATOMIC_ACQUIRE);
    if (is_equal) put(place, from, size, order);
    else memcpy(expected, place, size);
    unlock();
    return is_equal;
}

bool is_lock_free(size_t size, const volatile void *place) CALL(__atomic_is_lock_free);
bool is_lock_free(size_t size, const volatile void *place) {
    (void)size, (void)place;
    return false;
}
