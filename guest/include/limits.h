/* The limits of a guest: the C library's <limits.h>, and what POSIX has of threads and semaphores (XBD <limits.h>). */
#ifndef GUEST_LIMITS_H
#define GUEST_LIMITS_H

#pragma GCC system_header

#include_next <limits.h>

/* The least that POSIX allows. Of keys a guest has fewer. */
#define _POSIX_THREAD_DESTRUCTOR_ITERATIONS 4
#define _POSIX_THREAD_KEYS_MAX 128
#define _POSIX_THREAD_THREADS_MAX 64
#define _POSIX_SEM_NSEMS_MAX 256
#define _POSIX_SEM_VALUE_MAX 32767

#define PTHREAD_DESTRUCTOR_ITERATIONS 4
#define PTHREAD_KEYS_MAX 32
#define PTHREAD_STACK_MIN 4096
#define PTHREAD_THREADS_MAX 64
#define SEM_NSEMS_MAX 1048576 /* the words of the largest memory: nothing else bounds their number */
#undef SEM_VALUE_MAX
#define SEM_VALUE_MAX 2147483647
#define SSIZE_MAX 2147483647 /* of an answer of read and write */

#endif
