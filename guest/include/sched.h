/* Who runs is decided outside the guest: sched_yield does nothing, and there is one policy, SCHED_OTHER, with one priority. */
#ifndef GUEST_SCHED_H
#define GUEST_SCHED_H

#pragma GCC system_header

#define SCHED_OTHER 0
#define SCHED_FIFO 1
#define SCHED_RR 2

struct sched_param {
    int sched_priority; /* 0 */
};

#ifdef __cplusplus
extern "C" {
#endif

int sched_yield(void);

/* 0. -1 with EINVAL: another policy than SCHED_OTHER. */
int sched_get_priority_max(int policy);
int sched_get_priority_min(int policy);

#ifdef __cplusplus
}
#endif

#endif
