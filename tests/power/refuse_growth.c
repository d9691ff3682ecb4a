// Preloaded into a program, it refuses growths of the program's memory, and notes how many there were.
//
//   REFUSE_GROWTH=N   the N-th growth is refused, from 1 on; 0 or nothing: none
//   REFUSE_ALL=1      and each growth behind it too
//   COUNT_GROWTHS=F   at its end the program writes five numbers to the file F: its growths before it first read from
//                     standard input, those before it first wrote to a file at an offset, and all of them; 1 if it read,
//                     else 0, and 1 if it wrote, else 0
#define _GNU_SOURCE
#include <dlfcn.h>
#include <errno.h>
#include <fcntl.h>
#include <stdbool.h>
#include <stdio.h>
#include <stdlib.h>
#include <sys/mman.h>
#include <unistd.h>

extern void *__libc_malloc(size_t);
extern void *__libc_calloc(size_t, size_t);
extern void *__libc_realloc(void *, size_t);
extern void *__libc_memalign(size_t, size_t);

static bool is_set_up, refuses_all, has_read, has_written;
static unsigned long growths, growths_before_reading, growths_before_writing, refused;

static unsigned long number_of(const char *name) {
    const char *text = getenv(name);
    return text ? strtoul(text, NULL, 10) : 0;
}

// Whether a growth is refused, which is counted by this.
static bool is_refused(void) {
    if (!is_set_up) {
        return false; // before the program begins
    }
    growths++;
    if (refused == 0 || growths < refused || (growths > refused && !refuses_all)) {
        return false;
    }
    errno = ENOMEM;
    return true;
}

void *malloc(size_t size) { return is_refused() ? NULL : __libc_malloc(size); }

void *calloc(size_t count, size_t size) { return is_refused() ? NULL : __libc_calloc(count, size); }

void *realloc(void *old, size_t size) { return is_refused() ? NULL : __libc_realloc(old, size); }

void *aligned_alloc(size_t alignment, size_t size) { return is_refused() ? NULL : __libc_memalign(alignment, size); }

int posix_memalign(void **place, size_t alignment, size_t size) {
    void *made = is_refused() ? NULL : __libc_memalign(alignment, size);
    if (made == NULL) {
        return ENOMEM;
    }
    *place = made;
    return 0;
}

static void note_reading(int file) {
    if (file == STDIN_FILENO && !has_read) {
        has_read = true;
        growths_before_reading = growths;
    }
}

ssize_t read(int file, void *bytes, size_t count) {
    static ssize_t (*next)(int, void *, size_t);
    if (next == NULL) {
        next = (ssize_t(*)(int, void *, size_t))dlsym(RTLD_NEXT, "read");
    }
    note_reading(file);
    return next(file, bytes, count);
}

ssize_t pwrite64(int file, const void *bytes, size_t count, off64_t offset) {
    static ssize_t (*next)(int, const void *, size_t, off64_t);
    if (next == NULL) {
        next = (ssize_t(*)(int, const void *, size_t, off64_t))dlsym(RTLD_NEXT, "pwrite64");
    }
    if (!has_written) {
        has_written = true;
        growths_before_writing = growths;
    }
    return next(file, bytes, count, offset);
}

ssize_t pwrite(int file, const void *bytes, size_t count, off_t offset) { return pwrite64(file, bytes, count, offset); }

__attribute__((constructor)) static void set_up(void) {
    refused = number_of("REFUSE_GROWTH");
    refuses_all = number_of("REFUSE_ALL") != 0;
    is_set_up = true;
}

__attribute__((destructor)) static void note_counts(void) {
    const char *path = getenv("COUNT_GROWTHS");
    is_set_up = false;
    int file = path ? open(path, O_WRONLY | O_CREAT | O_TRUNC, 0600) : -1;
    if (file >= 0) {
        dprintf(file, "%lu %lu %lu %d %d\n", has_read ? growths_before_reading : growths,
                has_written ? growths_before_writing : growths, growths, has_read, has_written);
        close(file);
    }
}
