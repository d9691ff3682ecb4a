/*
 * Streams of a guest: the C library's <stdio.h> over the console, and the locks of streams.
 *
 * Each call on stdin, stdout or stderr holds the stream's lock from its begin to its end, so that what one call prints
 * stands together. stdout and stderr are both the console, without buffers, and have one lock. A stream of another kind
 * (sprintf's, fmemopen's) has none. The reading calls are cancellation points, and so are the
 * writing ones before their first byte, where the thread holds no stream by flockfile.
 */
#ifndef GUEST_STDIO_H
#define GUEST_STDIO_H

#pragma GCC system_header

#include_next <stdio.h>
#include <sys/types.h>

#ifdef __cplusplus
extern "C" {
#endif

void flockfile(FILE *stream);
int ftrylockfile(FILE *stream);
void funlockfile(FILE *stream);

#define getc_unlocked(stream) getc(stream)
#define getchar_unlocked() getchar()
#define putc_unlocked(byte, stream) putc(byte, stream)
#define putchar_unlocked(byte) putchar(byte)

/* Cancellation points. The line grows by realloc; -1 at the end of the input, or where there is no room (ENOMEM). */
ssize_t getline(char **__restrict line, size_t *__restrict room, FILE *__restrict stream);
ssize_t getdelim(char **__restrict line, size_t *__restrict room, int end, FILE *__restrict stream);

#ifdef GUEST_FILES
#define FOPEN_MAX 61
#define FILENAME_MAX 1024

int renameat(int from_folder, const char *from, int to_folder, const char *to);
#else
#define GUEST_HAS_NO_FILES __attribute__((error("a guest has files by the option -files alone")))

FILE *fopen(const char *, const char *) GUEST_HAS_NO_FILES;
FILE *freopen(const char *, const char *, FILE *) GUEST_HAS_NO_FILES;
FILE *fdopen(int, const char *) GUEST_HAS_NO_FILES;
FILE *tmpfile(void) GUEST_HAS_NO_FILES;
int remove(const char *) GUEST_HAS_NO_FILES;
int rename(const char *, const char *) GUEST_HAS_NO_FILES;
#endif

#ifdef __cplusplus
}
#endif

#endif
