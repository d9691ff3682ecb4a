/* getline and getdelim, which the C library doesn't have. */
#include <errno.h>
#include <pthread.h>
#include <stdbool.h>
#include <stdio.h>
#include <stdlib.h>

enum { FIRST_ROOM = 64 };

static void unlock(void *stream) { funlockfile(stream); }

/* Makes room for one byte more and the zero behind it. */
static bool grow(char **line, size_t *room, size_t count) {
    if (*line && count + 2 <= *room) return true;
    size_t new_room = *line && *room >= FIRST_ROOM ? 2 * *room : FIRST_ROOM;
    char *grown = realloc(*line, new_room);
    if (!grown) return false;
    *line = grown;
    *room = new_room;
    return true;
}

/* How many bytes were read; -1 where there was none, or no room for them. */
static ssize_t get_bytes(char **line, size_t *room, int end, FILE *stream) {
    size_t count = 0;
    int byte = EOF;
    do {
        if (!grow(line, room, count)) return -1;
        byte = getc(stream);
        if (byte != EOF) (*line)[count++] = (char)byte;
    } while (byte != EOF && byte != end);
    (*line)[count] = 0;
    return count ? (ssize_t)count : -1;
}

ssize_t getdelim(char **restrict line, size_t *restrict room, int end, FILE *restrict stream) {
    ssize_t count;
    if (!line || !room) {
        errno = EINVAL;
        return -1;
    }
    flockfile(stream);
    pthread_cleanup_push(unlock, stream);
    count = get_bytes(line, room, end, stream);
    pthread_cleanup_pop(1);
    return count;
}

ssize_t getline(char **restrict line, size_t *restrict room, FILE *restrict stream) {
    return getdelim(line, room, '\n', stream);
}
