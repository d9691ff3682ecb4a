/* The C library's <sys/stat.h>, and what POSIX has besides. */
#ifndef GUEST_SYS_STAT_H
#define GUEST_SYS_STAT_H

#pragma GCC system_header

#include_next <sys/stat.h>

#ifdef __cplusplus
extern "C" {
#endif

#define UTIME_NOW (-2L)
#define UTIME_OMIT (-1L)

int lstat(const char *__restrict path, struct stat *__restrict to); /* there are no links */
int fchmodat(int folder, const char *path, mode_t mode, int flags);
int fstatat(int folder, const char *__restrict path, struct stat *__restrict to, int flags);
int mkdirat(int folder, const char *path, mode_t mode);
int utimensat(int folder, const char *path, const struct timespec times[2], int flags);
int futimens(int number, const struct timespec times[2]);

#ifdef __cplusplus
}
#endif

#endif
