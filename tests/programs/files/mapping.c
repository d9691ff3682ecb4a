/* Private mappings that are read: of what it is given, and of what it has written; and the errors that POSIX.1-2017 has for all. */
#include "telling.h"
#include <fcntl.h>
#include <stdint.h>
#include <stdlib.h>
#include <sys/mman.h>
#include <unistd.h>

enum { PAGE = 4096 };

static const char *map(int number, size_t length, off_t offset) {
    const char *first = mmap(NULL, length, PROT_READ, MAP_PRIVATE, number, offset);
    TELL_NULL(first != MAP_FAILED);
    TELL((uintptr_t)first % PAGE);
    return first;
}

static unsigned sum_of(const char *first, size_t count) {
    unsigned sum = 0;
    for (size_t i = 0; i < count; i++) sum = sum * 31 + (unsigned char)first[i];
    return sum;
}

/* The same bytes by mmap, also behind close, and zeros behind the end up to the page's. */
static void map_all(const char *name, size_t size) {
    int number = open(name, O_RDONLY);
    char *bytes = calloc(1, size);
    TELL(read(number, bytes, size) == (ssize_t)size);
    const char *first = map(number, size, 0);
    close(number);
    TELL(memcmp(first, bytes, size));
    for (size_t at = size; at % PAGE; at++) {
        if (first[at]) printf("%s: no zero at %zu\n", name, at);
    }
    printf("%s: %u\n", name, sum_of(first, size));
    TELL(munmap((void *)(uintptr_t)first, size));
    free(bytes);
}

/* From the second page on, and of whole pages though the length is none. */
static void map_part(const char *name) {
    int number = open(name, O_RDONLY);
    const char *whole = map(number, 2 * PAGE, 0), *part = map(number, 100, PAGE);
    TELL(memcmp(whole + PAGE, part, PAGE));
    TELL(munmap((void *)(uintptr_t)whole, 1));
    printf("%u\n", sum_of(whole + PAGE, PAGE));
    TELL(munmap((void *)(uintptr_t)(whole + PAGE), PAGE));
    TELL(munmap((void *)(uintptr_t)(whole + PAGE), PAGE));
    printf("%u\n", sum_of(part, PAGE));
    TELL(munmap((void *)(uintptr_t)part, 100));
    close(number);
}

/* What it writes itself, and a name that is gone. */
static void map_written(void) {
    char line[16];
    int number = open("written", O_RDWR | O_CREAT, 0666);
    for (int i = 0; i < 1000; i++) if (write(number, line, (size_t)snprintf(line, sizeof line, "line %d\n", i)) < 0) abort();
    map_all("written", 8890);
    map_part("written");
    const char *first = map(number, 10, 0);
    TELL(unlink("written"));
    close(number);
    printf("%.6s\n", first);
    TELL(munmap((void *)(uintptr_t)first, 10));
}

static void *refused(size_t length, int protection, int flags, int number, off_t offset) {
    void *first = mmap(NULL, length, protection, flags, number, offset);
    return first == MAP_FAILED ? NULL : first;
}

static void errors(void) {
    int number = open("data.csv", O_RDONLY), writer = open("new", O_WRONLY | O_CREAT, 0666), folder = open(".", O_RDONLY);
    TELL_NULL(refused(0, PROT_READ, MAP_PRIVATE, number, 0));
    TELL_NULL(refused(1, PROT_READ, 0, number, 0));
    TELL_NULL(refused(1, PROT_READ, MAP_PRIVATE, number, 1));
    TELL_NULL(refused(1, PROT_READ, MAP_PRIVATE, number, PAGE - 1));
    TELL_NULL(refused(1, PROT_READ, MAP_PRIVATE, 60, 0));
    TELL_NULL(refused(1, PROT_READ, MAP_PRIVATE, -1, 0));
    TELL_NULL(refused(1, PROT_READ, MAP_PRIVATE, writer, 0));
    TELL_NULL(refused(1, PROT_WRITE, MAP_SHARED, number, 0));
    TELL_NULL(refused(1, PROT_READ | PROT_WRITE, MAP_SHARED, writer, 0));
    TELL_NULL(refused(1, PROT_READ, MAP_PRIVATE, folder, 0));
    const char *first = map(number, 1, 0);
    TELL(munmap((void *)(uintptr_t)first, 0));
    TELL(munmap((void *)(uintptr_t)(first + 1), 1));
    TELL(munmap((void *)(uintptr_t)first, SIZE_MAX - PAGE + 1));
    TELL(munmap((void *)(uintptr_t)first, 1));
    close(number), close(writer), close(folder);
}

int main(void) {
    map_all("data.csv", 8);
    map_all("conf/model.bin", 10240);
    map_all("conf/deep/er/text", 5);
    map_part("conf/model.bin");
    map_written();
    errors();
    return 0;
}
