/* Moments of the runtime's clock, in ticks of a millisecond. */
#ifndef GUEST_CLOCK_H
#define GUEST_CLOCK_H

#include <stdint.h>
#include <time.h>

/* Every moment lies below this one. */
#define NO_MOMENT (UINT64_C(1) << 63)

uint64_t __guest_now(void);

/* The first tick that isn't before the time; 0 for a time before the clock began, NO_MOMENT for one that is none. */
uint64_t __guest_moment(const struct timespec *time);

static inline uint32_t low_word(uint64_t moment) { return (uint32_t)moment; }
static inline uint32_t high_word(uint64_t moment) { return (uint32_t)(moment >> 32); }

#endif
