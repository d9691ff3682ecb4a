/*
 * Streams over files. The C library's calls of bytes and formats work with `put` and `get`; those that are about buffers,
 * offsets and files are here. A stream's lock is held in each of its calls, as console.c has it.
 */
#include "descriptors.h"
#include "../source/calls.h"
#include "../source/clock.h"
#include "../source/locks.h"
#include <errno.h>
#include <fcntl.h>
#include <pthread.h>
#include <stdio.h>
#include <stdlib.h>
#include <string.h>
#include <unistd.h>

enum { USUAL_ROOM = 1024, EXIT_TICKS = 1000 };

struct stream {
    struct __file file; /* what the C library knows of it */
    pthread_mutex_t mutex;
    struct stream *next;
    int number;         /* its descriptor */
    int mode;           /* _IOFBF, _IOLBF or _IONBF */
    char *buffer;       /* NULL until it is needed */
    uint32_t room;
    uint32_t filled;    /* bytes that were read, or are to be written */
    uint32_t taken;     /* of those that were read */
    bool is_writing;
    bool owns_buffer;
    bool is_fixed;      /* stdin, stdout or stderr: no block of the heap */
};

static int put(char byte, FILE *file);
static int get(FILE *file);
static int flush_hook(FILE *file);

/* The first three have buffers also where the heap has no room. */
#define STREAM(number_, flags_, mode_, buffer_)                                                                \
    {.file = {.flags = flags_, .put = put, .get = get, .flush = flush_hook}, .number = number_, .mode = mode_, \
     .buffer = buffer_, .room = sizeof buffer_, .is_fixed = true}

static char input_room[256], output_room[USUAL_ROOM], errors_room[256];
static struct stream input = STREAM(0, __SRD, _IOFBF, input_room);
static struct stream output = STREAM(1, __SWR, _IOLBF, output_room);
static struct stream errors = STREAM(2, __SWR, _IONBF, errors_room);
FILE *const stdin = &input.file, *const stdout = &output.file, *const stderr = &errors.file;

/* All that there are. The lock of their list is taken before that of a stream. */
static struct stream *streams;
static struct __lock list_lock;

/* Before the constructors of the program, which may print. */
__attribute__((constructor(102))) static void begin(void) {
    pthread_mutexattr_t attributes = {.type = PTHREAD_MUTEX_RECURSIVE};
    pthread_mutex_init(&input.mutex, &attributes);
    pthread_mutex_init(&output.mutex, &attributes);
    pthread_mutex_init(&errors.mutex, &attributes);
    pthread_mutex_init(&list_lock.mutex, &attributes);
    input.next = &output;
    output.next = &errors;
    streams = &input;
}

/* NULL: it is a stream of the C library's own, as that of fmemopen. */
static struct stream *stream_of(FILE *file) { return file->put == put ? (struct stream *)file : NULL; }

pthread_mutex_t *__guest_stream_lock(FILE *file) {
    struct stream *stream = stream_of(file);
    return stream ? &stream->mutex : NULL;
}

static int failed(struct stream *stream) {
    stream->file.flags |= __SERR;
    return EOF;
}

/* --- Buffers ------------------------------------------------------------------------------------------------------ */

static bool make_buffer(struct stream *stream) {
    if (stream->buffer) return true;
    stream->buffer = malloc(USUAL_ROOM);
    stream->room = USUAL_ROOM;
    stream->owns_buffer = stream->buffer;
    return stream->buffer;
}

/* Takes back a buffer of the program's: the first three have one of their own, also where the heap has no room. */
static void give_own_buffer(struct stream *stream) {
    stream->buffer = stream == &input ? input_room : stream == &output ? output_room : stream == &errors ? errors_room : NULL;
    stream->room = stream == &output ? sizeof output_room : sizeof input_room;
}

/* Writes what waits. What can't be written is dropped. */
static int flush(struct stream *stream) {
    const char *at = stream->buffer;
    uint32_t left = stream->is_writing ? stream->filled : 0;
    if (!stream->is_writing) return 0;
    stream->filled = 0;
    while (left > 0) {
        ssize_t written = __guest_write_some(stream->number, at, left);
        if (written <= 0) return failed(stream);
        at += written;
        left -= (uint32_t)written;
    }
    return 0;
}

/* Drops what was read ahead, so that the file's offset is where the program is. */
static void drop_read(struct stream *stream) {
    off_t ahead = (off_t)(stream->filled - stream->taken) + (stream->file.unget != 0);
    if (ahead > 0) {
        int error = errno;
        lseek(stream->number, -ahead, SEEK_CUR);
        errno = error;
    }
    stream->filled = stream->taken = 0;
    stream->file.unget = 0;
}

void __guest_begin_of_call(FILE *file, int way) {
    struct stream *stream = stream_of(file);
    if (!stream || file->flags & way) return;
    errno = EBADF;
    failed(stream);
}

static bool begin_writing(struct stream *stream) {
    if (!(stream->file.flags & __SWR)) return false;
    if (!stream->is_writing) drop_read(stream);
    stream->is_writing = true;
    return make_buffer(stream);
}

static bool begin_reading(struct stream *stream) {
    if (!(stream->file.flags & __SRD)) return false;
    if (stream->is_writing && flush(stream) != 0) return false;
    stream->is_writing = false;
    return make_buffer(stream);
}

/* --- Bytes -------------------------------------------------------------------------------------------------------- */

static int put(char byte, FILE *file) {
    struct stream *stream = (struct stream *)file;
    if (!begin_writing(stream)) return failed(stream);
    if (stream->filled == stream->room && flush(stream) != 0) return EOF;
    stream->buffer[stream->filled++] = byte;
    if (stream->mode == _IOLBF && byte == '\n' && flush(stream) != 0) return EOF;
    return (unsigned char)byte;
}

void __guest_end_of_call(FILE *file) {
    struct stream *stream = stream_of(file);
    if (stream && stream->mode == _IONBF && stream->is_writing) flush(stream);
}

/* Fills the buffer. 0, or what `get` answers. What came before a cancellation stays in the buffer. */
static int fill(struct stream *stream) {
    stream->filled = stream->taken = 0;
    if (stream->file.flags & __SEOF) return _FDEV_EOF;
    uint32_t room = stream->mode == _IONBF ? 1 : stream->room;
    int count = __guest_read_some(stream->number, stream->buffer, room, &stream->filled);
    if (count < 0) errno = -count;
    return count > 0 ? 0 : count < 0 ? _FDEV_ERR : _FDEV_EOF;
}

static int get(FILE *file) {
    struct stream *stream = (struct stream *)file;
    if (!begin_reading(stream)) return _FDEV_ERR;
    int end = stream->taken < stream->filled ? 0 : fill(stream);
    return end ? end : (unsigned char)stream->buffer[stream->taken++];
}

static int flush_hook(FILE *file) { return flush((struct stream *)file); }

/* --- Blocks ------------------------------------------------------------------------------------------------------- */

size_t __real_fread(void *to, size_t size, size_t count, FILE *from);
size_t __real_fwrite(const void *from, size_t size, size_t count, FILE *to);

static uint32_t least(size_t one, size_t other) { return (uint32_t)(one < other ? one : other); }

/* Takes bytes of the buffer; where it is empty, and the rest is as large, from the file at once. */
static uint32_t take_some(struct stream *stream, char *to, size_t count) {
    uint32_t came = 0;
    if (stream->file.unget) {
        *to = (char)stream->file.unget;
        stream->file.unget = 0;
        return 1;
    }
    if (stream->taken == stream->filled && count >= stream->room && !(stream->file.flags & __SEOF)) {
        int result = __guest_read_some(stream->number, to, least(count, MOST_SIZE), &came);
        if (result < 0) errno = -result;
        if (result <= 0) stream->file.flags |= result < 0 ? __SERR : __SEOF;
        return came;
    }
    int end = stream->taken < stream->filled ? 0 : fill(stream);
    if (end) {
        stream->file.flags |= end == _FDEV_ERR ? __SERR : __SEOF;
        return 0;
    }
    came = least(count, stream->filled - stream->taken);
    memcpy(to, stream->buffer + stream->taken, came);
    stream->taken += came;
    return came;
}

size_t __guest_read_blocks(void *to, size_t size, size_t count, FILE *from) {
    struct stream *stream = stream_of(from);
    size_t bytes, done = 0;
    if (!stream) return __real_fread(to, size, count, from);
    if (__builtin_mul_overflow(size, count, &bytes)) bytes = SIZE_MAX;
    if (bytes == 0) return 0;
    if (!begin_reading(stream)) return failed(stream), 0;
    while (done < bytes) {
        uint32_t came = take_some(stream, (char *)to + done, bytes - done);
        if (came == 0) break;
        done += came;
    }
    return done / size;
}

/* Puts bytes into the buffer; where it is empty, and they are as many, into the file at once. Answers how many, 0 where
   it fails. */
static uint32_t put_some(struct stream *stream, const char *from, size_t count) {
    if (stream->filled == stream->room && flush(stream) != 0) return 0;
    if (stream->filled == 0 && count >= stream->room) {
        ssize_t written = __guest_write_some(stream->number, from, least(count, MOST_SIZE));
        if (written <= 0) return failed(stream), 0;
        return (uint32_t)written;
    }
    uint32_t part = least(count, stream->room - stream->filled);
    memcpy(stream->buffer + stream->filled, from, part);
    stream->filled += part;
    return part;
}

size_t __guest_write_blocks(const void *from, size_t size, size_t count, FILE *to) {
    struct stream *stream = stream_of(to);
    size_t bytes, done = 0;
    if (!stream) return __real_fwrite(from, size, count, to);
    if (__builtin_mul_overflow(size, count, &bytes)) bytes = SIZE_MAX;
    if (bytes == 0) return 0;
    if (!begin_writing(stream)) return failed(stream), 0;
    while (done < bytes) {
        uint32_t part = put_some(stream, (const char *)from + done, bytes - done);
        if (part == 0) return done / size;
        done += part;
    }
    if (stream->mode == _IOLBF && memchr(from, '\n', bytes) && flush(stream) != 0) return 0;
    return count;
}

/* --- fopen and fclose --------------------------------------------------------------------------------------------- */

/* The flags of `open` for a mode as "r+b"; -1: it is none. */
static int flags_of(const char *mode) {
    int flags = *mode == 'r'   ? O_RDONLY
                : *mode == 'w' ? O_WRONLY | O_CREAT | O_TRUNC
                : *mode == 'a' ? O_WRONLY | O_CREAT | O_APPEND
                               : -1;
    for (const char *at = mode + 1; flags >= 0 && *at && *at != ','; at++) {
        if (*at == '+') flags = (flags & ~O_ACCMODE) | O_RDWR;
        if (*at == 'x') flags |= O_EXCL;
    }
    if (flags < 0) errno = EINVAL;
    return flags;
}

static uint8_t stream_flags(int flags) {
    int access = flags & O_ACCMODE;
    return access == O_RDONLY ? __SRD : access == O_WRONLY ? __SWR : __SRD | __SWR;
}

static void add(struct stream *stream) {
    pthread_mutex_lock(&list_lock.mutex);
    stream->next = streams;
    streams = stream;
    pthread_mutex_unlock(&list_lock.mutex);
}

static void take_out(struct stream *stream) {
    pthread_mutex_lock(&list_lock.mutex);
    struct stream **at = &streams;
    while (*at && *at != stream) at = &(*at)->next;
    if (*at) *at = stream->next;
    pthread_mutex_unlock(&list_lock.mutex);
}

/* A stream that has no descriptor yet; NULL with `errno`. */
static struct stream *new_stream(int flags) {
    pthread_mutexattr_t attributes = {.type = PTHREAD_MUTEX_RECURSIVE};
    struct stream *stream = calloc(1, sizeof *stream);
    if (!stream) return NULL;
    stream->file = (struct __file){.flags = stream_flags(flags), .put = put, .get = get, .flush = flush_hook};
    if (pthread_mutex_init(&stream->mutex, &attributes) != 0) {
        free(stream);
        errno = EMFILE;
        return NULL;
    }
    return stream;
}

/* Gives a new stream a descriptor; frees it where that is -1. NULL with `errno`. */
static FILE *give_number(struct stream *stream, int number) {
    stream->number = number;
    if (number >= 0) {
        add(stream);
        return &stream->file;
    }
    pthread_mutex_destroy(&stream->mutex);
    free(stream);
    return NULL;
}

FILE *fdopen(int number, const char *mode) {
    int flags = flags_of(mode), is = flags < 0 ? -1 : fcntl(number, F_GETFL);
    if (is < 0) return NULL;
    bool is_wrong = (is & O_ACCMODE) != O_RDWR && (is & O_ACCMODE) != (flags & O_ACCMODE);
    if (is_wrong) {
        errno = EINVAL;
        return NULL;
    }
    struct stream *stream = new_stream(flags);
    if (stream && (flags & O_APPEND)) fcntl(number, F_SETFL, is | O_APPEND);
    return stream ? give_number(stream, number) : NULL;
}

/* The stream comes first: where there is no room for it no file is made or cut. */
FILE *fopen(const char *path, const char *mode) {
    int flags = flags_of(mode), state;
    pthread_testcancel();
    struct stream *stream = flags < 0 ? NULL : new_stream(flags);
    if (!stream) return NULL;
    pthread_setcancelstate(PTHREAD_CANCEL_DISABLE, &state); /* `open` is a cancellation point */
    FILE *file = give_number(stream, open(path, flags, 0666));
    pthread_setcancelstate(state, NULL);
    return file;
}

/* A file without a name: it never goes out. */
FILE *tmpfile(void) {
    struct stream *stream = new_stream(O_RDWR);
    if (!stream) return NULL;
    int state = __guest_files_lock();
    struct place nowhere = {.folder = NULL};
    struct node *node = __guest_make_node(&nowhere, PLAIN, 0600);
    int number = node ? __guest_open_node(node, O_RDWR) : -ENOSPC;
    if (node && number < 0) {
        node->uses = 1;
        __guest_end_use(node);
    }
    __guest_files_unlock(state);
    return give_number(stream, __guest_answer(number));
}

static void free_buffer(struct stream *stream) {
    if (stream->owns_buffer) free(stream->buffer);
    stream->buffer = NULL; /* not one of its own: it has ended, or gets another one */
    stream->filled = stream->taken = 0;
    stream->owns_buffer = false;
}

/* Brings the file's offset to where the program is, and writes what waits. */
static int settle(struct stream *stream) {
    if (stream->is_writing) return flush(stream);
    drop_read(stream);
    return 0;
}

int __real_fclose(FILE *file);
int __wrap_fclose(FILE *file) {
    struct stream *stream = stream_of(file);
    if (!stream) return __real_fclose(file);
    take_out(stream);
    flockfile(file);
    int result = settle(stream);
    if (__guest_close(stream->number) != 0) result = EOF;
    free_buffer(stream);
    stream->file.flags = 0;
    funlockfile(file);
    if (!stream->is_fixed) {
        pthread_mutex_destroy(&stream->mutex);
        free(stream);
    }
    return result;
}

/* Gives a stream another file, under the same descriptor. Where there is none the stream has none, as POSIX has it. */
static bool exchange(struct stream *stream, const char *path, int flags) {
    int number = open(path, flags, 0666);
    if (number < 0) {
        int error = errno;
        __guest_close(stream->number);
        stream->number = -1;
        errno = error;
        return false;
    }
    if (number == stream->number) return true;
    dup2(number, stream->number);
    __guest_close(number);
    return true;
}

FILE *freopen(const char *path, const char *mode, FILE *file) {
    struct stream *stream = stream_of(file);
    int flags = flags_of(mode), state;
    pthread_testcancel();
    if (!stream) errno = EBADF;
    if (!stream || flags < 0) return NULL;
    pthread_setcancelstate(PTHREAD_CANCEL_DISABLE, &state); /* `open` is a cancellation point */
    flockfile(file);
    settle(stream);
    int is = path ? 0 : fcntl(stream->number, F_GETFL);
    bool is_done = path ? exchange(stream, path, flags)
                        : is >= 0 && ((is & O_ACCMODE) == O_RDWR || (is & O_ACCMODE) == (flags & O_ACCMODE));
    if (!path && !is_done) errno = EBADF;
    stream->file.flags = is_done ? stream_flags(flags) : 0;
    stream->file.unget = 0;
    stream->is_writing = false;
    if (path && stream->mode == _IOLBF) stream->mode = _IOFBF; /* of a file that is no console */
    funlockfile(file);
    pthread_setcancelstate(state, NULL);
    return is_done ? file : NULL;
}

int fileno(FILE *file) {
    struct stream *stream = stream_of(file);
    if (stream && stream->file.flags & (__SRD | __SWR)) return stream->number;
    errno = EBADF;
    return -1;
}

/* --- fflush, offsets and buffers ---------------------------------------------------------------------------------- */

static int flush_locked(struct stream *stream) {
    flockfile(&stream->file);
    int result = stream->is_writing ? flush(stream) : 0;
    funlockfile(&stream->file);
    return result;
}

/* Not those that only read: a thread that waits for input has the lock of such a one. */
static int flush_all(void) {
    int result = 0;
    pthread_mutex_lock(&list_lock.mutex);
    for (struct stream *stream = streams; stream; stream = stream->next) {
        if (stream->file.flags & __SWR && flush_locked(stream) != 0) result = EOF;
    }
    pthread_mutex_unlock(&list_lock.mutex);
    return result;
}

int __real_fflush(FILE *file);
int __wrap_fflush(FILE *file) {
    if (!file) return flush_all();
    struct stream *stream = stream_of(file);
    if (!stream) return __real_fflush(file);
    flockfile(file);
    int result = settle(stream);
    funlockfile(file);
    return result;
}

int __real_fseeko(FILE *file, off_t offset, int whence);
int __wrap_fseeko(FILE *file, off_t offset, int whence) {
    struct stream *stream = stream_of(file);
    if (!stream) return __real_fseeko(file, offset, whence);
    flockfile(file);
    int result = settle(stream) == 0 && lseek(stream->number, offset, whence) >= 0 ? 0 : -1;
    if (result == 0) stream->file.flags &= (uint8_t)~__SEOF;
    funlockfile(file);
    return result;
}

int __real_fseek(FILE *file, long offset, int whence);
int __wrap_fseek(FILE *file, long offset, int whence) {
    return stream_of(file) ? __wrap_fseeko(file, offset, whence) : __real_fseek(file, offset, whence);
}

/* What waits to be appended lies behind the file's end. */
static off_t offset_of(struct stream *stream) {
    if (stream->is_writing && fcntl(stream->number, F_GETFL) & O_APPEND && flush(stream) != 0) return -1;
    off_t at = lseek(stream->number, 0, SEEK_CUR);
    if (at < 0) return -1;
    if (stream->is_writing) return at + (off_t)stream->filled;
    return at - (off_t)(stream->filled - stream->taken) - (stream->file.unget != 0);
}

off_t __real_ftello(FILE *file);
off_t __wrap_ftello(FILE *file) {
    struct stream *stream = stream_of(file);
    if (!stream) return __real_ftello(file);
    flockfile(file);
    off_t at = offset_of(stream);
    funlockfile(file);
    return at;
}

long __real_ftell(FILE *file);
long __wrap_ftell(FILE *file) { return stream_of(file) ? __wrap_ftello(file) : __real_ftell(file); }

int fgetpos(FILE *file, fpos_t *at) {
    *at = ftello(file);
    return *at < 0 ? -1 : 0;
}

int fsetpos(FILE *file, fpos_t *at) { return fseeko(file, (off_t)*at, SEEK_SET); }

int __real_setvbuf(FILE *file, char *buffer, int mode, size_t size);
int __wrap_setvbuf(FILE *file, char *buffer, int mode, size_t size) {
    struct stream *stream = stream_of(file);
    if (!stream) return __real_setvbuf(file, buffer, mode, size);
    if (mode != _IOFBF && mode != _IOLBF && mode != _IONBF) return -1;
    flockfile(file);
    int result = settle(stream);
    char *other = mode == _IONBF || size == 0 ? NULL : buffer ? buffer : malloc(size);
    stream->mode = mode;
    if (other) {
        free_buffer(stream);
        stream->buffer = other;
        stream->owns_buffer = !buffer;
        stream->room = least(size, MOST_SIZE);
    } else if (!stream->owns_buffer) {
        give_own_buffer(stream);
    }
    funlockfile(file);
    return result;
}

void setbuffer(FILE *file, char *buffer, size_t size) { setvbuf(file, buffer, buffer ? _IOFBF : _IONBF, size); }
void setlinebuf(FILE *file) { setvbuf(file, NULL, _IOLBF, 0); }

/* --- The end ------------------------------------------------------------------------------------------------------ */

/* Waits for a while at most. */
static void take_for_the_end(pthread_mutex_t *mutex) {
    uint64_t moment = __guest_now() + EXIT_TICKS;
    object_call(CALL_MUTEX_TIMEDLOCK, mutex, low_word(moment), high_word(moment), 0);
}

/* Behind the routines of atexit and all other destructors. A stream whose owner waits for ever is flushed all the same. */
__attribute__((destructor(101))) static void end(void) {
    take_for_the_end(&list_lock.mutex); /* no stream is freed any more */
    for (struct stream *stream = streams; stream; stream = stream->next) {
        if (!(stream->file.flags & __SWR)) continue;
        take_for_the_end(&stream->mutex);
        flush(stream);
    }
}
