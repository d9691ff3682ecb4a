/*
 * Three threads, each with a file that it only appends to, and which gets its name once it is whole: as programs write that
 * may be stopped at any moment. So whatever a cut leaves of them is a beginning of what is there at the end.
 */
#include <fcntl.h>
#include <pthread.h>
#include <stdio.h>
#include <stdlib.h>
#include <sys/stat.h>
#include <unistd.h>

enum { THREADS = 3, ROWS = 120 };

static const char *const names[THREADS] = {"squares.txt", "tables/cubes.txt", "tables/deep/remainders.bin"};

static void check(int is_right) {
    if (!is_right) exit(1);
}

static void write_text(FILE *file, unsigned power) {
    for (unsigned row = 1; row <= ROWS; row++) {
        fprintf(file, "%u %u\n", row, power == 2 ? row * row : row * row * row);
        if (row % 16 == 0) fflush(file);
    }
}

/* Rows that are longer than a frame may be, one of them. */
static void write_remainders(int number) {
    static unsigned char row[5000];
    for (unsigned count = 50; count <= 5000; count *= 10) {
        for (unsigned i = 0; i < count; i++) row[i] = (unsigned char)(i * i % 251);
        check(write(number, row, count) == (ssize_t)count);
    }
}

static void *work(void *argument) {
    const char *name = *(const char *const *)argument;
    char part[64];
    snprintf(part, sizeof part, "%s.part", name);
    FILE *file = fopen(part, "w");
    check(file != NULL);
    if (name == names[2]) write_remainders(fileno(file));
    else write_text(file, name == names[0] ? 2 : 3);
    check(fclose(file) == 0 && rename(part, name) == 0);
    return NULL;
}

int main(void) {
    pthread_t threads[THREADS];
    FILE *lock = fopen("lock", "w");
    check(lock && fclose(lock) == 0);
    check(mkdir("tables", 0777) == 0 && mkdir("tables/deep", 0777) == 0);
    for (int i = 0; i < THREADS; i++) check(pthread_create(&threads[i], NULL, work, (void *)&names[i]) == 0);
    for (int i = 0; i < THREADS; i++) {
        pthread_join(threads[i], NULL);
        printf("%s is whole\n", names[i]);
    }
    fprintf(stderr, "%d files\n", THREADS);
    check(remove("lock") == 0);
    return 0;
}
