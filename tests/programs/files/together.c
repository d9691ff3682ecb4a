/*
 * Threads that share a descriptor, a stream and a folder (POSIX.1-2017, XSH 2.9.7, flockfile, readdir_r): each record, line
 * and name is had by one of them, and what one call writes stands together.
 */
#include "telling.h"
#include <dirent.h>
#include <fcntl.h>
#include <pthread.h>
#include <stdlib.h>
#include <sys/stat.h>
#include <sys/uio.h>
#include <unistd.h>

#pragma GCC diagnostic ignored "-Wdeprecated-declarations" /* of readdir_r, on Linux */

enum { THREADS = 3, RECORDS = 60, RECORD = 8 };

static int records, log_file, had[4][RECORDS];
static FILE *lines;
static DIR *folder;
static pthread_mutex_t counts = PTHREAD_MUTEX_INITIALIZER;
static pthread_barrier_t begin;

static void count(int kind, const char *text) {
    int number = atoi(text);
    pthread_mutex_lock(&counts);
    if (number >= 0 && number < RECORDS) had[kind][number]++;
    pthread_mutex_unlock(&counts);
}

static void *take(void *argument) {
    char record[RECORD + 1] = "", *line = NULL;
    size_t room = 0;
    struct dirent entry, *found;
    pthread_barrier_wait(&begin);
    while (readdir_r(folder, &entry, &found) == 0 && found) {
        if (entry.d_name[0] != '.') count(2, entry.d_name);
    }
    pthread_barrier_wait(&begin);
    while (read(records, record, RECORD) == RECORD) {
        struct iovec pieces[3] = {{"<", 1}, {record, RECORD - 1}, {">\n", 2}};
        count(0, record);
        if (writev(log_file, pieces, 3) != RECORD + 2) abort();
    }
    pthread_barrier_wait(&begin);
    while (getline(&line, &room, lines) > 0) count(1, line);
    free(line);
    return argument;
}

/* A file of records, and as many names in a folder. */
static void make(void) {
    char text[32];
    FILE *file = fopen("records", "w");
    mkdir("names", 0777);
    for (int i = 0; i < RECORDS; i++) {
        fprintf(file, "%*d\n", RECORD - 1, i);
        snprintf(text, sizeof text, "names/%d", i);
        close(open(text, O_WRONLY | O_CREAT, 0666));
    }
    fclose(file);
}

static void read_log(void) {
    char line[32];
    FILE *file = fopen("log", "r");
    while (fgets(line, sizeof line, file)) {
        if (strlen(line) == RECORD + 2 && line[0] == '<' && line[RECORD] == '>') count(3, line + 1);
    }
    fclose(file);
}

/* How many were had just once. */
static int once(int kind) {
    int number = 0;
    for (int i = 0; i < RECORDS; i++) number += had[kind][i] == 1;
    return number;
}

int main(void) {
    pthread_t threads[THREADS];
    make();
    records = open("records", O_RDONLY);
    log_file = open("log", O_WRONLY | O_CREAT | O_APPEND, 0666);
    lines = fopen("records", "r");
    folder = opendir("names");
    pthread_barrier_init(&begin, NULL, THREADS);
    for (int i = 0; i < THREADS; i++) pthread_create(&threads[i], NULL, take, NULL);
    for (int i = 0; i < THREADS; i++) pthread_join(threads[i], NULL);
    read_log();
    for (int kind = 0; kind < 4; kind++) TELL(once(kind));
    return 0;
}
