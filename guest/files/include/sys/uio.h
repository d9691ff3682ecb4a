/* Several pieces by one call (POSIX, <sys/uio.h>). */
#ifndef GUEST_SYS_UIO_H
#define GUEST_SYS_UIO_H

#pragma GCC system_header

#include <sys/types.h>

#ifdef __cplusplus
extern "C" {
#endif

#define IOV_MAX 1024

struct iovec {
    void *iov_base;
    size_t iov_len;
};

ssize_t readv(int number, const struct iovec *pieces, int count);
ssize_t writev(int number, const struct iovec *pieces, int count);

#ifdef __cplusplus
}
#endif

#endif
