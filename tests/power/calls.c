// Preloaded into ckrt, it notes the program's writes and syncs of files in one folder, and can leave syncs out.
//
//   POWER_NOTES=FILE   where each note goes, by one write: `write NAME OFFSET COUNT`, a line feed and the bytes, before the call,
//                      in parts where there are many; `synced NAME`, once a sync has answered 0; of a folder, `folder synced`
//   POWER_NOTED=N      the program is killed right behind its N-th note, where N isn't 0
//   POWER_RESTS=N      how many microseconds pass behind each write, so that other programs come in between
//   POWER_LACKS=KIND   syncs that aren't made, though the program is told that they were: `all`, `batch` (of a disk, behind a
//                      write of more than one byte), `gate` (of a disk, behind a write of one byte), `history` (of a file whose
//                      name ends in `.history`), `output` (of any other file) or `folder`. They aren't noted.
#define _GNU_SOURCE
#include <dlfcn.h>
#include <fcntl.h>
#include <signal.h>
#include <stdbool.h>
#include <stdio.h>
#include <stdlib.h>
#include <string.h>
#include <sys/stat.h>
#include <unistd.h>

enum { PART = 65536, NAME = 256, HIGH = 100 };

static int notes = -1;
static const char *lacks = "";
static useconds_t rests;
static unsigned long left; // of the notes that are made
static size_t last_count; // of the last write to a disk

static unsigned long number_of(const char *name) {
    const char *text = getenv(name);
    return text ? strtoul(text, NULL, 10) : 0;
}

// The last name in the path of an open file.
static const char *name_of(int file, char *path) {
    char link[32];
    snprintf(link, sizeof link, "/proc/self/fd/%d", file);
    ssize_t length = readlink(link, path, NAME - 1);
    path[length > 0 ? length : 0] = 0;
    const char *slash = strrchr(path, '/');
    return slash ? slash + 1 : path;
}

static bool ends_in(const char *name, const char *end) {
    size_t length = strlen(name), more = strlen(end);
    return length > more && strcmp(name + length - more, end) == 0;
}

static bool is_disk(const char *name) { return ends_in(name, ".disk"); }

static void put(const char *bytes, size_t count) {
    if (notes >= 0 && write(notes, bytes, count) != (ssize_t)count) {
        abort();
    }
    if (notes >= 0 && left > 0 && --left == 0) {
        kill(getpid(), SIGKILL);
    }
}

static void note_write(const char *name, const char *bytes, size_t count, off64_t offset) {
    static char note[PART + NAME + 64];
    for (size_t at = 0; at < count; at += PART) {
        size_t part = count - at < PART ? count - at : PART;
        int head = snprintf(note, NAME + 64, "write %s %lld %zu\n", name, (long long)offset + (long long)at, part);
        memcpy(note + head, bytes + at, part);
        put(note, head + part);
    }
}

ssize_t pwrite64(int file, const void *bytes, size_t count, off64_t offset) {
    static ssize_t (*next)(int, const void *, size_t, off64_t);
    if (next == NULL) {
        next = (ssize_t(*)(int, const void *, size_t, off64_t))dlsym(RTLD_NEXT, "pwrite64");
    }
    char path[NAME];
    const char *name = name_of(file, path);
    note_write(name, bytes, count, offset);
    if (is_disk(name)) {
        last_count = count;
    }
    ssize_t answer = next(file, bytes, count, offset);
    usleep(rests);
    return answer;
}

ssize_t pwrite(int file, const void *bytes, size_t count, off_t offset) { return pwrite64(file, bytes, count, offset); }

static bool is_lacked(const char *name, bool is_folder) {
    if (strcmp(lacks, "all") == 0) {
        return true;
    }
    if (is_folder || !is_disk(name)) {
        return strcmp(lacks, is_folder ? "folder" : ends_in(name, ".history") ? "history" : "output") == 0;
    }
    return strcmp(lacks, last_count == 1 ? "gate" : "batch") == 0;
}

static int sync_by(const char *call, int file) {
    char path[NAME], note[NAME + 32];
    struct stat found;
    const char *name = name_of(file, path);
    bool is_folder = fstat(file, &found) == 0 && S_ISDIR(found.st_mode);
    if (is_lacked(name, is_folder)) {
        return 0;
    }
    int (*next)(int) = (int (*)(int))dlsym(RTLD_NEXT, call);
    int answer = next(file);
    if (answer == 0) {
        put(note, is_folder ? snprintf(note, sizeof note, "folder synced\n") : snprintf(note, sizeof note, "synced %s\n", name));
    }
    return answer;
}

int fdatasync(int file) { return sync_by("fdatasync", file); }

int fsync(int file) { return sync_by("fsync", file); }

__attribute__((constructor)) static void set_up(void) {
    const char *path = getenv("POWER_NOTES"), *kind = getenv("POWER_LACKS");
    rests = number_of("POWER_RESTS");
    left = number_of("POWER_NOTED");
    lacks = kind ? kind : "";
    int file = path ? open(path, O_WRONLY | O_CLOEXEC) : -1;
    if (file >= 0) {
        notes = fcntl(file, F_DUPFD_CLOEXEC, HIGH); // not one of the numbers that the program looks at
        close(file);
    }
}
