/* What console.c asks of streams over files. */
#ifndef GUEST_FILES_STREAMS_H
#define GUEST_FILES_STREAMS_H

#include <pthread.h>
#include <stdio.h>

/* NULL: the stream is none of these. */
pthread_mutex_t *__guest_stream_lock(FILE *stream);

/* A stream that isn't open for this way, __SRD or __SWR, has an error: EBADF. */
void __guest_begin_of_call(FILE *stream, int way);

/* At the end of a call that writes: puts out what mustn't wait. */
void __guest_end_of_call(FILE *stream);

/* The calls of blocks, in place of the C library's, which go byte by byte. */
#define __real_fread __guest_read_blocks
#define __real_fwrite __guest_write_blocks

#endif
