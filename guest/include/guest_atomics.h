/*
 * Stands before every source. Of all atomic operations these three are no calls to the compiler but plain stores, which
 * could come between the load and the store of a call that another thread is in: so they are made calls too.
 */
#ifndef __ASSEMBLER__
#pragma GCC system_header
#define __sync_lock_release(place, ...) __atomic_store_n((place), 0, __ATOMIC_RELEASE)
#define __atomic_clear(place, order) __atomic_store_n((volatile unsigned char *)(place), 0, (order))
#define __atomic_test_and_set(place, order) (__atomic_exchange_n((volatile unsigned char *)(place), 1, (order)) != 0)
#endif
