/* Mappings that a guest can't have, by the errors of POSIX.1-2017; a file that is mapped without a copy; and no room for one. */
#include "telling.h"
#include <fcntl.h>
#include <sys/mman.h>
#include <unistd.h>

enum { PAGE = 4096, MANY = 100, LARGE = 150000 };

static void *map(void *at, size_t length, int protection, int flags, int number, off_t offset) {
    void *first = mmap(at, length, protection, flags, number, offset);
    return first == MAP_FAILED ? NULL : first;
}

/* Files of the image: each of these fits, though the heap has no room for two of them. */
static void map_large(int number) {
    const char *first = map(NULL, LARGE, PROT_READ, MAP_PRIVATE, number, 0);
    const char *other = map(NULL, LARGE, PROT_READ, MAP_PRIVATE, number, 0);
    TELL(first && other && first[0] == 'a' && other[LARGE - 1] == 'z' && first[LARGE] == 0);
}

/* Copies of what lies in the heap: no room, and room again. */
static void map_written(int number) {
    static void *all[MANY];
    int count = 0;
    ftruncate(number, 2 * PAGE);
    while (count < MANY && (all[count] = map(NULL, 2 * PAGE, PROT_READ, MAP_PRIVATE, number, 0))) count++;
    TELL(count > 1 && count < MANY);
    TELL_NULL(map(NULL, 2 * PAGE, PROT_READ, MAP_PRIVATE, number, 0));
    TELL(munmap(all[0], PAGE));
    TELL_NULL(map(NULL, 2 * PAGE, PROT_READ, MAP_PRIVATE, number, 0));
    TELL(munmap((char *)all[0] + PAGE, PAGE));
    TELL_NULL(map(NULL, 2 * PAGE, PROT_READ, MAP_PRIVATE, number, 0));
}

int main(void) {
    int large = open("large", O_RDONLY), number = open("written", O_RDWR | O_CREAT, 0666), null = open("/dev/null", O_RDWR);
    void *here = map(NULL, PAGE, PROT_READ, MAP_PRIVATE, large, 0);
    TELL_NULL(map(here, PAGE, PROT_READ, MAP_PRIVATE, large, 0));
    TELL_NULL(map(here, PAGE, PROT_READ, MAP_PRIVATE | MAP_FIXED, large, 0));
    TELL_NULL(map(NULL, PAGE, PROT_READ, MAP_SHARED, large, 0));
    TELL_NULL(map(NULL, PAGE, PROT_READ | PROT_WRITE, MAP_PRIVATE, large, 0));
    TELL_NULL(map(NULL, PAGE, PROT_READ | PROT_EXEC, MAP_PRIVATE, large, 0));
    TELL_NULL(map(NULL, PAGE, PROT_NONE, MAP_PRIVATE, large, 0));
    TELL_NULL(map(NULL, PAGE, PROT_READ, MAP_PRIVATE | MAP_SHARED, large, 0));
    TELL_NULL(map(NULL, PAGE, PROT_READ, MAP_PRIVATE | 64, large, 0));
    TELL_NULL(map(NULL, PAGE, PROT_READ, MAP_PRIVATE, null, 0));
    TELL_NULL(map(NULL, PAGE, PROT_READ, MAP_PRIVATE, 0, 0));
    TELL_NULL(map(NULL, PAGE, PROT_READ, MAP_PRIVATE, number, 0));
    TELL_NULL(map(NULL, 37 * PAGE + 1, PROT_READ, MAP_PRIVATE, large, 0));
    TELL_NULL(map(NULL, 1, PROT_READ, MAP_PRIVATE, large, 37 * PAGE));
    TELL_NULL(map(NULL, 0x7FFFFFFF, PROT_READ, MAP_PRIVATE, large, PAGE));
    TELL_NULL(map(NULL, 1, PROT_READ, MAP_PRIVATE, large, -PAGE));
    map_large(large);
    map_written(number);
    return 0;
}
