/*
 * stdin, stdout and stderr over the console.
 *
 * The C library's calls on streams know of no locks. So the linker sends each call that moves bytes here first (its
 * option --wrap, see `build`), and the call itself has the name __real_..: a writing call is a cancellation point before its first
 * byte, and then holds the output's lock, with cancellation disabled, since it mustn't end in its middle; a reading call holds the
 * input's lock, which a clean-up handler gives up where the thread is cancelled as it waits for input. The library's other calls are made of these.
 */
#include "calls.h"
#include "fenced.h"
#include "locks.h"
#include <stdarg.h>
#include <stdbool.h>
#include <stdio.h>
#include <stdlib.h>
#include <string.h>

#ifdef GUEST_FILES
#include "../files/streams.h"

static pthread_mutex_t *lock_of(FILE *stream) { return __guest_stream_lock(stream); }

#else
#define END_OF_INPUT 0xFFFFFFFF

static int put(char byte, FILE *stream) {
    (void)stream;
    runtime(CALL_PUTC, (unsigned char)byte, 0, 0, 0);
    return (unsigned char)byte;
}

static int get(FILE *stream) {
    (void)stream;
    uint32_t byte = runtime(CALL_GETC, 0, 0, 0, 0).result;
    return byte == END_OF_INPUT ? _FDEV_EOF : (int)byte;
}

static FILE input = FDEV_SETUP_STREAM(NULL, get, NULL, _FDEV_SETUP_READ);
static FILE output = FDEV_SETUP_STREAM(put, NULL, NULL, _FDEV_SETUP_WRITE);
static FILE errors = FDEV_SETUP_STREAM(put, NULL, NULL, _FDEV_SETUP_WRITE);

FILE *const stdin = &input, *const stdout = &output, *const stderr = &errors;

static pthread_mutex_t *lock_of(FILE *stream) {
    if (stream == &input) return &__guest_input_lock.mutex;
    if (stream == &output || stream == &errors) return &__guest_output_lock.mutex;
    return NULL;
}

static void __guest_begin_of_call(FILE *stream, int way) { (void)stream, (void)way; }
static void __guest_end_of_call(FILE *stream) { (void)stream; }

#endif

/* How many times the thread holds locks of streams: then no writing call is a cancellation point. */
static _Thread_local unsigned held;

static int hold_stream(FILE *stream, uint32_t call) {
    pthread_mutex_t *lock = lock_of(stream);
    int error = lock ? object_call(call, lock, 0, 0, 0) : 0;
    if (lock && !error) held++;
    return error;
}

static void leave_stream(FILE *stream) {
    pthread_mutex_t *lock = lock_of(stream);
    if (lock && object_call(CALL_MUTEX_UNLOCK, lock, 0, 0, 0) == 0) held--;
}

/* What a program does between these calls is in an order, as under any lock, though the output's own lock orders no prints. */
static volatile uint32_t handed_on;

static bool is_output(FILE *stream) { return lock_of(stream) == &__guest_output_lock.mutex; }

static int taken(FILE *stream, int error) {
    if (!error && is_output(stream)) (void)load_word(&handed_on);
    return error;
}

void flockfile(FILE *stream) { taken(stream, hold_stream(stream, CALL_MUTEX_LOCK)); }

int ftrylockfile(FILE *stream) { return taken(stream, hold_stream(stream, CALL_MUTEX_TRYLOCK)); }

void funlockfile(FILE *stream) {
    if (is_output(stream)) store_word(&handed_on, 0);
    leave_stream(stream);
}

/* --- Writing ------------------------------------------------------------------------------------------------------ */

/* Answers the state of cancellation, for `end_writing`. */
static int begin_writing(FILE *stream) {
    int state;
    if (!held && lock_of(stream)) pthread_testcancel();
    pthread_setcancelstate(PTHREAD_CANCEL_DISABLE, &state);
    hold_stream(stream, CALL_MUTEX_LOCK);
    __guest_begin_of_call(stream, __SWR);
    return state;
}

static void end_writing(FILE *stream, int state) {
    __guest_end_of_call(stream);
    leave_stream(stream);
    pthread_setcancelstate(state, NULL);
}

/* A call __wrap_NAME that writes to `stream` by __real_NAME. */
#define WRITING(type, name, stream, parameters, arguments) \
    type __real_##name parameters;                         \
    type __wrap_##name parameters {                        \
        int state = begin_writing(stream);                 \
        type result = __real_##name arguments;             \
        end_writing(stream, state);                        \
        return result;                                     \
    }

WRITING(int, fputc, to, (int byte, FILE *to), (byte, to))
WRITING(int, putc, to, (int byte, FILE *to), (byte, to))
WRITING(int, fputs, to, (const char *text, FILE *to), (text, to))
WRITING(int, puts, stdout, (const char *text), (text))
WRITING(size_t, fwrite, to, (const void *from, size_t size, size_t count, FILE *to), (from, size, count, to))
WRITING(int, vfprintf, to, (FILE *to, const char *format, va_list values), (to, format, values))

/* --- Reading ------------------------------------------------------------------------------------------------------ */

static void unlock(void *stream) { leave_stream(stream); }

/* The library reads no long double: of such a format this tells. */
static const char *checked(const char *format) {
    for (const char *at = format; (at = strchr(at, '%')); at++) {
        at += 1 + strspn(at + 1, "*0123456789");
        if (*at == 'L' && at[1] && strchr("aAeEfFgG", at[1])) {
            __guest_say("a guest can't read a long double by a format: read a double, or take strtold\n");
            abort();
        }
        if (!*at) break;
    }
    return format;
}

/* A call __wrap_NAME that reads from `stream` by __real_NAME. */
#define READING(type, name, stream, parameters, arguments) \
    type __real_##name parameters;                         \
    type __wrap_##name parameters {                        \
        type result;                                       \
        hold_stream(stream, CALL_MUTEX_LOCK);              \
        pthread_cleanup_push(unlock, stream);              \
        __guest_begin_of_call(stream, __SRD);              \
        result = __real_##name arguments;                  \
        pthread_cleanup_pop(1);                            \
        return result;                                     \
    }

READING(int, fgetc, from, (FILE *from), (from))
READING(int, getc, from, (FILE *from), (from))
READING(int, ungetc, from, (int byte, FILE *from), (byte, from))
READING(char *, fgets, from, (char *to, int size, FILE *from), (to, size, from))
READING(size_t, fread, from, (void *to, size_t size, size_t count, FILE *from), (to, size, count, from))
READING(int, vfscanf, from, (FILE *from, const char *format, va_list places), (from, checked(format), places))
