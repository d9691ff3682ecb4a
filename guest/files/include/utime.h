/* The times of files of a guest, which are kept in it alone. */
#ifndef GUEST_UTIME_H
#define GUEST_UTIME_H

#pragma GCC system_header

#include <sys/types.h>
#include_next <utime.h>

#ifdef __cplusplus
extern "C" {
#endif

int utime(const char *path, const struct utimbuf *times);

#ifdef __cplusplus
}
#endif

#endif
