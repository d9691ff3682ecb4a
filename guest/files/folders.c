/* What is in a folder: its names as they were when it was opened, or wound back. */
#include "descriptors.h"
#include <dirent.h>
#include <errno.h>
#include <fcntl.h>
#include <pthread.h>
#include <stdlib.h>
#include <string.h>
#include <unistd.h>

struct __guest_folder_stream {
    int number;
    struct dirent *entries;
    long count, next;
};

static long count_in(const struct node *folder) {
    long count = 2;
    for (struct node *node = folder->first; node; node = node->next) count++;
    return count;
}

static void set_entry(struct dirent *entry, const struct node *node, const char *name) {
    entry->d_ino = node->number;
    entry->d_type = node->kind == FOLDER ? DT_DIR : node->kind == PLAIN ? DT_REG : DT_CHR;
    strcpy(entry->d_name, name);
}

/* Takes the names as they are. */
static int look(DIR *stream) {
    struct open_file *file = __guest_open_file(stream->number);
    if (!file) return -EBADF;
    struct node *folder = file->node;
    struct dirent *entries = calloc((size_t)count_in(folder), sizeof *entries);
    if (!entries) return -ENOMEM;
    free(stream->entries);
    stream->entries = entries;
    stream->count = stream->next = 0;
    set_entry(&entries[stream->count++], folder, ".");
    set_entry(&entries[stream->count++], folder->folder ? folder->folder : folder, "..");
    for (struct node *node = folder->first; node; node = node->next) set_entry(&entries[stream->count++], node, node->name);
    return 0;
}

static int look_locked(DIR *stream) {
    int state = __guest_files_lock(), error = look(stream);
    __guest_files_unlock(state);
    return error;
}

DIR *fdopendir(int number) {
    struct node *folder;
    int state = __guest_files_lock(), error = number == AT_FDCWD ? -EBADF : __guest_begin_of(number, &folder);
    DIR *stream = error ? NULL : calloc(1, sizeof *stream);
    if (!error && !stream) error = -ENOMEM;
    if (stream) {
        stream->number = number;
        error = look(stream);
    }
    __guest_files_unlock(state);
    if (!error) return stream;
    free(stream);
    errno = -error;
    return NULL;
}

DIR *opendir(const char *path) {
    int number = open(path, O_RDONLY | O_DIRECTORY);
    DIR *stream = number < 0 ? NULL : fdopendir(number);
    if (number >= 0 && !stream) {
        int error = errno;
        close(number);
        errno = error;
    }
    return stream;
}

int closedir(DIR *stream) {
    int number = stream->number;
    pthread_testcancel();
    free(stream->entries);
    free(stream);
    return __guest_close(number);
}

struct dirent *readdir(DIR *stream) { return stream->next < stream->count ? &stream->entries[stream->next++] : NULL; }

int readdir_r(DIR *restrict stream, struct dirent *restrict to, struct dirent **restrict result) {
    int state = __guest_files_lock();
    struct dirent *entry = readdir(stream);
    if (entry) *to = *entry;
    *result = entry ? to : NULL;
    __guest_files_unlock(state);
    return 0;
}

void rewinddir(DIR *stream) {
    if (look_locked(stream) != 0) stream->next = 0;
}

long telldir(DIR *stream) { return stream->next; }

void seekdir(DIR *stream, long place) { stream->next = place; }

int dirfd(DIR *stream) { return stream->number; }

int alphasort(const struct dirent **one, const struct dirent **other) { return strcmp((*one)->d_name, (*other)->d_name); }

/* Copies the entries that are chosen into a list of their own. */
static int choose(DIR *stream, struct dirent **list, int (*is_chosen)(const struct dirent *)) {
    int count = 0;
    for (struct dirent *entry; (entry = readdir(stream));) {
        if (is_chosen && !is_chosen(entry)) continue;
        if (!(list[count] = malloc(sizeof *entry))) {
            while (count) free(list[--count]);
            return -ENOMEM;
        }
        *list[count++] = *entry;
    }
    return count;
}

int scandir(const char *path, struct dirent ***result, int (*is_chosen)(const struct dirent *),
            int (*compare)(const struct dirent **, const struct dirent **)) {
    DIR *stream = opendir(path);
    if (!stream) return -1;
    struct dirent **list = calloc((size_t)stream->count, sizeof *list);
    int count = list ? choose(stream, list, is_chosen) : -ENOMEM;
    closedir(stream);
    if (count < 0) {
        free(list);
        return __guest_answer(count);
    }
    if (compare) qsort(list, (size_t)count, sizeof *list, (int (*)(const void *, const void *))compare);
    *result = list;
    return count;
}
