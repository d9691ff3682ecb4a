/*
 * The C library's <unistd.h>, and which options of POSIX a guest has (XBD <unistd.h>, constants for options): 200809L where
 * each call of the option is there but for those that are about processes, files or signals of others, else -1. `sysconf` answers
 * the same. Of threads one limit is below the least that POSIX allows: there are PTHREAD_KEYS_MAX keys, 32.
 */
#ifndef GUEST_UNISTD_H
#define GUEST_UNISTD_H

#pragma GCC system_header

#include_next <unistd.h>

#ifdef _GNU_SOURCE
/* As on Linux: again as long as a signal cut the call short, which none does here. */
#define TEMP_FAILURE_RETRY(expression) (expression)
#endif

#define _POSIX_VERSION 200809L

#define _POSIX_BARRIERS 200809L
#define _POSIX_CLOCK_SELECTION 200809L
#define _POSIX_MONOTONIC_CLOCK 200809L
#define _POSIX_READER_WRITER_LOCKS 200809L
#define _POSIX_REGEXP 200809L
#define _POSIX_SEMAPHORES 200809L
#define _POSIX_SPIN_LOCKS 200809L
#define _POSIX_THREAD_ATTR_STACKADDR 200809L
#define _POSIX_THREAD_ATTR_STACKSIZE 200809L
#define _POSIX_THREAD_SAFE_FUNCTIONS 200809L
#define _POSIX_THREADS 200809L
#define _POSIX_TIMEOUTS 200809L

#define _POSIX_ADVISORY_INFO (-1)
#define _POSIX_ASYNCHRONOUS_IO (-1)
#define _POSIX_CPUTIME (-1)
#define _POSIX_FSYNC (-1)
#define _POSIX_IPV6 (-1)
#define _POSIX_JOB_CONTROL (-1)
#define _POSIX_MAPPED_FILES (-1)
#define _POSIX_MEMLOCK (-1)
#define _POSIX_MEMLOCK_RANGE (-1)
#define _POSIX_MEMORY_PROTECTION (-1)
#define _POSIX_MESSAGE_PASSING (-1)
#define _POSIX_PRIORITIZED_IO (-1)
#define _POSIX_PRIORITY_SCHEDULING (-1)
#define _POSIX_RAW_SOCKETS (-1)
#define _POSIX_REALTIME_SIGNALS (-1)
#define _POSIX_SAVED_IDS (-1)
#define _POSIX_SHARED_MEMORY_OBJECTS (-1)
#define _POSIX_SHELL (-1)
#define _POSIX_SPAWN (-1)
#define _POSIX_SPORADIC_SERVER (-1)
#define _POSIX_SYNCHRONIZED_IO (-1)
#define _POSIX_THREAD_CPUTIME (-1)
#define _POSIX_THREAD_PRIO_INHERIT (-1)
#define _POSIX_THREAD_PRIO_PROTECT (-1)
#define _POSIX_THREAD_PRIORITY_SCHEDULING (-1)
#define _POSIX_THREAD_PROCESS_SHARED (-1)
#define _POSIX_THREAD_ROBUST_PRIO_INHERIT (-1)
#define _POSIX_THREAD_ROBUST_PRIO_PROTECT (-1)
#define _POSIX_THREAD_SPORADIC_SERVER (-1)
#define _POSIX_TIMERS (-1)
#define _POSIX_TRACE (-1)
#define _POSIX_TYPED_MEMORY_OBJECTS (-1)

#endif
