/* The C library's <stdlib.h>; what it has of other processes would do nothing. */
#ifndef GUEST_STDLIB_H
#define GUEST_STDLIB_H

#pragma GCC system_header

#include_next <stdlib.h>

#ifdef __cplusplus
extern "C" {
#endif

int system(const char *) __attribute__((error("a guest is one process")));

#ifdef __cplusplus
}
#endif

#endif
