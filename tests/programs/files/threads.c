/*
 * Threads with files of their own, one log for all, and one that is cancelled again and again within calls on files. Their
 * count is small enough for one hart, and the files are what they are by any schedule: the log is sorted at the end.
 */
#include "telling.h"
#include <fcntl.h>
#include <pthread.h>
#include <stdlib.h>
#include <unistd.h>

enum { THREADS = 4, ROUNDS = 60, LINE = 64, CANCELLED = 8 };

static FILE *shared;


static void *work(void *argument) {
    int me = *(int *)argument, log = open("log", O_WRONLY | O_CREAT | O_APPEND, 0666);
    char name[32], line[LINE];
    snprintf(name, sizeof name, "of.%d", me);
    FILE *own = fopen(name, "w+");
    for (int round = 0; round < ROUNDS; round++) {
        int length = snprintf(line, sizeof line, "thread %d, round %02d\n", me, round);
        fputs(line, own);
        fprintf(shared, "%s", line);
        if (write(log, line, (size_t)length) != length) abort();
        if (round % 16 == 0) fflush(shared);
        if (round % 20 == 19) {
            fseek(own, 0, SEEK_SET);
            if (!fgets(line, sizeof line, own)) abort();
            fseek(own, 0, SEEK_END);
        }
    }
    fclose(own);
    close(log);
    return NULL;
}

/* It is cancelled at some call: no lock may stay behind. */
static void *write_for_ever(void *unused) {
    FILE *file = fopen("scratch", "w+");
    for (;;) {
        char line[LINE];
        fprintf(file, "one more line\n");
        fflush(file);
        rewind(file);
        if (!fgets(line, sizeof line, file)) abort();
        int number = open("scratch.two", O_RDWR | O_CREAT | O_TRUNC, 0666);
        if (number < 0) pthread_exit(NULL); /* those that others left open are as many as there may be */
        if (write(number, line, 4) != 4) abort();
        close(number);
    }
    return unused;
}

static int compare(const void *one, const void *other) { return strcmp(one, other); }

/* Sorts the lines of a file into another one. */
static void sort(const char *name, const char *to) {
    static char lines[THREADS * ROUNDS][LINE];
    int count = 0;
    FILE *file = fopen(name, "r");
    while (count < THREADS * ROUNDS && fgets(lines[count], LINE, file)) count++;
    fclose(file);
    qsort(lines, (size_t)count, LINE, compare);
    file = fopen(to, "w");
    for (int i = 0; i < count; i++) fputs(lines[i], file);
    fclose(file);
    remove(name);
    printf("%s: %d lines\n", name, count);
}

int main(void) {
    pthread_t threads[THREADS], cancelled;
    int numbers[THREADS];
    shared = fopen("shared", "a");
    for (int i = 0; i < THREADS; i++) {
        numbers[i] = i;
        pthread_create(&threads[i], NULL, work, &numbers[i]);
    }
    for (int i = 0; i < CANCELLED; i++) {
        pthread_create(&cancelled, NULL, write_for_ever, NULL);
        for (int turn = 0; turn < 3; turn++) usleep(1000);
        pthread_cancel(cancelled);
        pthread_join(cancelled, NULL);
    }
    for (int i = 0; i < THREADS; i++) pthread_join(threads[i], NULL);
    fclose(shared);
    remove("scratch");
    remove("scratch.two");
    sort("log", "log.sorted");
    sort("shared", "shared.sorted");
    return 0;
}
