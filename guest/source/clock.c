/* The clock and the sleeps. */
#include "clock.h"
#include "calls.h"
#include <stdbool.h>
#include <sys/time.h>
#include <unistd.h>

enum { TICKS_A_SECOND = 1000, NANOSECONDS_A_TICK = 1000000, NANOSECONDS_A_SECOND = 1000000000 };

uint64_t __guest_now(void) {
    struct answer now = runtime(CALL_CLOCK, 0, 0, 0, 0);
    return (uint64_t)now.value << 32 | now.result;
}

uint64_t __guest_moment(const struct timespec *time) {
    if (time->tv_nsec < 0 || time->tv_nsec >= NANOSECONDS_A_SECOND) return NO_MOMENT;
    if (time->tv_sec < 0) return 0;
    uint64_t ticks = ((uint32_t)time->tv_nsec + NANOSECONDS_A_TICK - 1) / NANOSECONDS_A_TICK;
    if ((uint64_t)time->tv_sec > (NO_MOMENT - 1 - ticks) / TICKS_A_SECOND) return NO_MOMENT - 1;
    return (uint64_t)time->tv_sec * TICKS_A_SECOND + ticks;
}

static struct timespec time_of(uint64_t ticks) {
    return (struct timespec){
        .tv_sec = (time_t)(ticks / TICKS_A_SECOND),
        .tv_nsec = (long)(ticks % TICKS_A_SECOND) * NANOSECONDS_A_TICK,
    };
}

static bool is_clock(clockid_t clock) { return clock == CLOCK_REALTIME || clock == CLOCK_MONOTONIC; }

/* Processor time can be asked for, and is the one clock's too. */
static bool is_readable(clockid_t clock) {
    return is_clock(clock) || clock == CLOCK_PROCESS_CPUTIME_ID || clock == CLOCK_THREAD_CPUTIME_ID;
}

static int failed(int error) {
    errno = error;
    return -1;
}

int clock_gettime(clockid_t clock, struct timespec *now) {
    if (!is_readable(clock)) return failed(EINVAL);
    *now = time_of(__guest_now());
    return 0;
}

int clock_getres(clockid_t clock, struct timespec *resolution) {
    if (!is_readable(clock)) return failed(EINVAL);
    if (resolution) *resolution = time_of(1);
    return 0;
}

int timespec_get(struct timespec *now, int base) {
    if (base != TIME_UTC) return 0;
    *now = time_of(__guest_now());
    return base;
}

clock_t clock(void) { return (clock_t)(__guest_now() * (CLOCKS_PER_SEC / TICKS_A_SECOND)); }

int gettimeofday(struct timeval *restrict now, void *restrict zone) {
    (void)zone;
    struct timespec time = time_of(__guest_now());
    *now = (struct timeval){.tv_sec = time.tv_sec, .tv_usec = time.tv_nsec / 1000};
    return 0;
}

int clock_nanosleep(clockid_t clock, int flags, const struct timespec *time, struct timespec *rest) {
    (void)rest; /* no sleep ends before its moment */
    if (!is_clock(clock)) return EINVAL;
    uint64_t moment = __guest_moment(time);
    if (moment == NO_MOMENT) return EINVAL;
    if (!(flags & TIMER_ABSTIME)) {
        uint64_t now = __guest_now();
        moment = moment < NO_MOMENT - now ? now + moment : NO_MOMENT - 1;
    }
    return error_of(runtime(CALL_SLEEP_UNTIL, low_word(moment), high_word(moment), 0, 0).result);
}

int nanosleep(const struct timespec *time, struct timespec *rest) {
    int error = clock_nanosleep(CLOCK_REALTIME, 0, time, rest);
    return error ? failed(error) : 0;
}

unsigned sleep(unsigned seconds) {
    nanosleep(&(struct timespec){.tv_sec = seconds}, NULL);
    return 0;
}

int usleep(useconds_t microseconds) {
    return nanosleep(&(struct timespec){microseconds / 1000000, (long)(microseconds % 1000000) * 1000}, NULL);
}
