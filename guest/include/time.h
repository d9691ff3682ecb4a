/*
 * The time of a guest: the C library's <time.h> and the clocks of POSIX.
 *
 * There is one clock, whatever its name. It begins at 0, and grows by the ticks that whoever runs the guest hands in:
 * one tick is one millisecond. A moment between two ticks counts as the later one.
 */
#ifndef GUEST_TIME_H
#define GUEST_TIME_H

#pragma GCC system_header

/* The C library's header asks which of these are defined, to declare more than a guest has. */
#pragma push_macro("_POSIX_CLOCK_SELECTION")
#undef _POSIX_CLOCK_SELECTION
#pragma push_macro("_POSIX_CPUTIME")
#undef _POSIX_CPUTIME
#pragma push_macro("_POSIX_MONOTONIC_CLOCK")
#undef _POSIX_MONOTONIC_CLOCK
#pragma push_macro("_POSIX_THREAD_CPUTIME")
#undef _POSIX_THREAD_CPUTIME
#pragma push_macro("_POSIX_TIMERS")
#undef _POSIX_TIMERS
#include_next <time.h>
#pragma pop_macro("_POSIX_CLOCK_SELECTION")
#pragma pop_macro("_POSIX_CPUTIME")
#pragma pop_macro("_POSIX_MONOTONIC_CLOCK")
#pragma pop_macro("_POSIX_THREAD_CPUTIME")
#pragma pop_macro("_POSIX_TIMERS")

#ifndef CLOCK_MONOTONIC
#define CLOCK_MONOTONIC ((clockid_t)4)
#endif

#ifndef CLOCK_PROCESS_CPUTIME_ID
#define CLOCK_PROCESS_CPUTIME_ID ((clockid_t)2)
#endif
#ifndef CLOCK_THREAD_CPUTIME_ID
#define CLOCK_THREAD_CPUTIME_ID ((clockid_t)3)
#endif

/* Of ISO C: this one clock too. */
#define TIME_UTC 1

/* As POSIX says; the C library counts milliseconds. */
#undef CLOCKS_PER_SEC
#define CLOCKS_PER_SEC ((clock_t)1000000)

#ifdef __cplusplus
extern "C" {
#endif

int clock_gettime(clockid_t clock, struct timespec *now);
int clock_getres(clockid_t clock, struct timespec *resolution);
int timespec_get(struct timespec *now, int base);               /* the base, or 0 for another than TIME_UTC */

/* Cancellation points. A sleep ends at its moment and at no other: no signal cuts it short. */
int clock_nanosleep(clockid_t clock, int flags, const struct timespec *time, struct timespec *rest);
int nanosleep(const struct timespec *time, struct timespec *rest);

/* There is no processor time: this is the one clock too, in microseconds. */
clock_t clock(void);

#ifdef __cplusplus
}
#endif

#endif
