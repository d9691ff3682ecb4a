/* What POSIX.1-2017 asks at the limits: no room, names that are too long, and calls of many pieces. */
#include "telling.h"
#include <fcntl.h>
#include <limits.h>
#include <pthread.h>
#include <stdint.h>
#include <stdlib.h>
#include <sys/stat.h>
#include <sys/uio.h>
#include <unistd.h>

enum { BLOCKS = 4000, PART = 200 };

static void *blocks[BLOCKS];

/* Takes all of the heap, down to the smallest block. What files could give up goes first. */
static void take_all(void) {
    int count = 0;
    for (size_t size = 65536; size > 0; size /= 2) {
        while (count < BLOCKS && (blocks[count] = malloc(size))) count++;
    }
}

static void give_all(void) {
    for (int i = 0; i < BLOCKS; i++) {
        free(blocks[i]);
        blocks[i] = NULL;
    }
}

static long size_of(const char *name) {
    struct stat about;
    return stat(name, &about) == 0 ? (long)about.st_size : -1;
}

/* A call that fails makes and cuts nothing. */
static void no_room(void) {
    int number = open("kept", O_RDWR | O_CREAT, 0666);
    TELL(write(number, "bytes", 5));
    take_all();
    TELL(open("kept", O_WRONLY | O_TRUNC));
    TELL_NULL(fopen("kept", "w"));
    TELL(open("new", O_WRONLY | O_CREAT, 0666));
    TELL_NULL(fopen("other", "w"));
    TELL(mkdir("folder", 0777));
    TELL(rename("kept", "renamed"));
    TELL(pwrite(number, "far", 3, 50000));
    give_all();
    TELL(size_of("kept"));
    TELL(size_of("new"));
    TELL(size_of("other"));
    close(number);
}

/* The first streams need no room of the heap, whatever their buffers were; others fail by name. */
static void full_streams(void) {
    static char own[100], text[3000];
    FILE *file = fopen("full", "w+");
    setvbuf(stdout, own, _IOFBF, sizeof own);
    setvbuf(stdout, NULL, _IONBF, 0);
    setvbuf(file, own, _IOFBF, sizeof own);
    take_all();
    printf("unbuffered\n");
    setvbuf(stdout, NULL, _IOLBF, 0);
    TELL(fwrite(text, 1, sizeof text, file) < sizeof text);
    TELL(ferror(file) != 0);
    clearerr(file);
    TELL(fputs("more", file) < 0);
    TELL(fflush(file));
    TELL(fclose(file));
    give_all();
}

static void *nothing(void *unused) { return unused; }

/* What only goes out makes room for a thread too. */
static void room_for_threads(void) {
    static char piece[1000];
    pthread_t thread;
    int number = open("large", O_WRONLY | O_CREAT, 0666), error;
    for (int i = 0; i < 300; i++) {
        if (write(number, piece, sizeof piece) != sizeof piece) abort();
    }
    error = pthread_create(&thread, NULL, nothing, NULL);
    TELL(error);
    pthread_join(thread, NULL);
    close(number);
}

/* A whole name has PATH_MAX bytes at most with the zero behind it, by whatever steps. */
static void names(void) {
    char part[PART + 1], whole[PATH_MAX], path[3 * PART];
    memset(part, 'n', PART);
    part[PART] = 0;
    for (int depth = 0; depth < 5; depth++) {
        int made = mkdir(part, 0777);
        if (made < 0) TELL(made);
        if (made == 0 && chdir(part) < 0) TELL(-1);
    }
    TELL_NULL(getcwd(whole, sizeof whole));
    TELL(strlen(whole));
    TELL(open(part, O_WRONLY | O_CREAT, 0666));
    TELL_NULL(fopen(part, "w"));
    TELL(open("short", O_WRONLY | O_CREAT, 0666) >= 0);
    TELL(chdir("/guest"));
    TELL(mkdir("top", 0777));
    TELL(mkdir("top/below", 0777));
    snprintf(path, sizeof path, "top/below/%s", part);
    TELL(mkdir(path, 0777));
    snprintf(whole, sizeof whole, "%s/%s/%s/%s/top-and", part, part, part, part);
    TELL(rename("top", whole));
    TELL(access(path, F_OK));
    whole[strlen(whole) - strlen("-and")] = 0;
    TELL(rename("top", whole));
    TELL(access(path, F_OK));
}

/* pwrite goes to its offset, also where others append. */
static void pieces(void) {
    char bytes[16] = "";
    struct iovec large[2] = {{bytes, SSIZE_MAX}, {bytes, 1}}, largest[2] = {{bytes, SIZE_MAX}, {bytes, 2}};
    int number = open("pieces", O_RDWR | O_CREAT | O_APPEND, 0666);
    TELL(write(number, "abcdef", 6));
    TELL(pwrite(number, "XY", 2, 1));
    TELL(pread(number, bytes, sizeof bytes, 0));
    puts(bytes);
    TELL(writev(number, large, 2));
    TELL(readv(number, large, 2));
    TELL(writev(number, largest, 2));
    TELL(lseek(number, 0, SEEK_END));
    close(number);
}

int main(void) {
    no_room();
    full_streams();
    room_for_threads();
    names();
    pieces();
    return 0;
}
