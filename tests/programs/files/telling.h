/* Tells what calls answer: a number, or the name of an error, whose numbers differ between systems. */
#ifndef TELLING_H
#define TELLING_H

#include <errno.h>
#include <stdio.h>
#include <string.h>

static const struct {
    int number;
    const char *name;
} error_names[] = {
    {EACCES, "EACCES"}, {EAGAIN, "EAGAIN"}, {EBADF, "EBADF"}, {EBUSY, "EBUSY"}, {EEXIST, "EEXIST"}, {EFBIG, "EFBIG"},
    {EINVAL, "EINVAL"}, {EIO, "EIO"}, {EISDIR, "EISDIR"}, {EMFILE, "EMFILE"}, {ENAMETOOLONG, "ENAMETOOLONG"},
    {ENODEV, "ENODEV"}, {ENOTSUP, "ENOTSUP"}, {ENXIO, "ENXIO"}, {ENOENT, "ENOENT"}, {ENOMEM, "ENOMEM"}, {ENOSPC, "ENOSPC"}, {ENOTDIR, "ENOTDIR"}, {ENOTEMPTY, "ENOTEMPTY"},
    {ENOTTY, "ENOTTY"}, {EPERM, "EPERM"}, {ERANGE, "ERANGE"}, {ESPIPE, "ESPIPE"}, {EXDEV, "EXDEV"}, {EOVERFLOW, "EOVERFLOW"},
};

__attribute__((unused)) static const char *error_name(int number) {
    for (size_t i = 0; i < sizeof error_names / sizeof *error_names; i++) {
        if (error_names[i].number == number) return error_names[i].name;
    }
    return "another error";
}

/* The line of the program that says it comes first, so that a difference is found. */
__attribute__((unused)) static long told(int line, const char *what, long result) {
    if (result < 0) printf("%d: %s: %s\n", line, what, error_name(errno));
    else printf("%d: %s: %ld\n", line, what, result);
    return result;
}

#define TELL(call) told(__LINE__, #call, (long)(call))

/* Of a call that answers a pointer. */
#define TELL_NULL(call) ((call) ? (void)told(__LINE__, #call, 1) : (void)told(__LINE__, #call, -1))

#endif
