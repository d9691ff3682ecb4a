/* The calls on descriptors: open and its flags, read, write, offsets, sizes, dup and fcntl. */
#include "telling.h"
#include <fcntl.h>
#include <stdlib.h>
#include <sys/stat.h>
#include <sys/uio.h>
#include <unistd.h>

static void show(const char *name) {
    char bytes[64];
    int number = open(name, O_RDONLY);
    ssize_t count = read(number, bytes, sizeof bytes);
    printf("%s: %d:", name, (int)count);
    for (ssize_t i = 0; i < count; i++) printf(bytes[i] < 32 ? " \\%d" : " %c", bytes[i]);
    printf("\n");
    close(number);
}

static void flags(void) {
    TELL(open("missing", O_RDONLY));
    TELL(open("missing", O_RDWR));
    TELL(open("missing/file", O_RDWR | O_CREAT, 0666));
    TELL(open("", O_RDWR | O_CREAT, 0666));
    TELL(open("file", O_RDWR | O_CREAT | O_EXCL, 0666));
    TELL(open("file", O_RDWR | O_CREAT | O_EXCL, 0666));
    TELL(open("file", O_WRONLY | O_CREAT, 0666));
    TELL(open("file/", O_RDONLY));
    TELL(open("file/more", O_RDONLY));
    TELL(open("file", O_RDONLY | O_DIRECTORY));
    TELL(open(".", O_WRONLY));
    TELL(open(".", O_RDONLY));
    TELL(open("new/", O_WRONLY | O_CREAT, 0666));
    TELL(creat("created", 0644));
    TELL(openat(AT_FDCWD, "file", O_RDONLY));
    TELL(openat(3, "file", O_RDONLY));
    TELL(openat(99, "file", O_RDONLY));
    TELL(openat(5, "created", O_RDONLY));
    for (int number = 3; number <= 9; number++) TELL(close(number));
    TELL(close(9));
    TELL(close(-1));
}

static void bytes(void) {
    char text[32] = "";
    int number = open("bytes", O_RDWR | O_CREAT | O_TRUNC, 0666), reader = open("bytes", O_RDONLY);
    int writer = open("bytes", O_WRONLY);
    TELL(write(number, "0123456789", 10));
    TELL(read(number, text, 4));
    TELL(read(reader, text, 4));
    TELL(lseek(number, 0, SEEK_CUR));
    TELL(pread(number, text, 3, 5));
    puts(text);
    TELL(pwrite(number, "AB", 2, 20));
    TELL(lseek(number, 0, SEEK_CUR));
    TELL(lseek(number, -2, SEEK_END));
    TELL(read(number, text, 30));
    TELL(lseek(number, -30, SEEK_CUR));
    TELL(lseek(number, 0, 7));
    TELL(lseek(number, 100, SEEK_SET));
    TELL(read(number, text, 1));
    TELL(write(number, "", 0));
    TELL(write(reader, "x", 1));
    TELL(read(writer, text, 1));
    TELL(read(99, text, 1));
    TELL(write(-1, text, 1));
    TELL(pread(number, text, 1, -1));
    TELL(pwrite(number, text, 1, -1));
    TELL(lseek(99, 0, SEEK_SET));
    show("bytes");
    close(number), close(reader), close(writer);
}

static void sizes(void) {
    int number = open("bytes", O_RDWR), reader = open("bytes", O_RDONLY);
    TELL(ftruncate(number, 3));
    TELL(ftruncate(number, 6));
    TELL(ftruncate(number, -1));
    TELL(ftruncate(reader, 1));
    TELL(ftruncate(99, 1));
    show("bytes");
    TELL(truncate("bytes", 2));
    TELL(truncate("missing", 2));
    TELL(truncate(".", 2));
    show("bytes");
    TELL(fsync(number));
    TELL(fdatasync(number));
    TELL(fsync(99));
    TELL(isatty(number) - 1);
    TELL(isatty(99) - 1);
    close(number), close(reader);
}

static void appending(void) {
    int one = open("log", O_WRONLY | O_CREAT | O_APPEND, 0666), other = open("log", O_WRONLY | O_APPEND);
    TELL(write(one, "one ", 4));
    TELL(write(other, "two ", 4));
    TELL(write(one, "three", 5));
    TELL(lseek(one, 0, SEEK_CUR));
    TELL(lseek(other, 0, SEEK_CUR));
    close(one), close(other);
    show("log");
}

static void duplicates(void) {
    int number = open("twice", O_RDWR | O_CREAT, 0666), other;
    TELL((other = dup(number)) > number);
    TELL(write(number, "ab", 2));
    TELL(write(other, "cd", 2));
    TELL(dup2(number, 20));
    TELL(write(20, "ef", 2));
    TELL(dup2(number, number) == number);
    TELL(dup2(99, 20));
    TELL(dup2(number, -1));
    TELL(dup(99));
    TELL(fcntl(number, F_GETFL) & O_ACCMODE);
    TELL(fcntl(number, F_SETFL, O_APPEND));
    TELL((fcntl(other, F_GETFL) & O_APPEND) != 0);
    TELL(fcntl(number, F_DUPFD, 30));
    TELL(fcntl(number, F_DUPFD, -1));
    TELL(fcntl(99, F_GETFL));
    TELL(close(number));
    TELL(write(other, "gh", 2));
    close(other), close(20), close(30);
    show("twice");
}

static void pieces(void) {
    char one[4] = "", two[8] = "";
    struct iovec out[] = {{"abc", 3}, {"", 0}, {"defgh", 5}}, in[] = {{one, 3}, {two, 7}};
    volatile int none = -1;
    int number = open("pieces", O_RDWR | O_CREAT, 0666);
    TELL(writev(number, out, 3));
    TELL(lseek(number, 1, SEEK_SET));
    TELL(readv(number, in, 2));
    printf("%s %s\n", one, two);
    TELL(writev(number, out, none));
    close(number);
}

/* A file goes on without its name. */
static void nameless(void) {
    char text[16] = "";
    struct stat about;
    int number = open("nameless", O_RDWR | O_CREAT, 0666);
    TELL(write(number, "still", 5));
    TELL(unlink("nameless"));
    TELL(write(number, " here", 5));
    TELL(pread(number, text, 10, 0));
    puts(text);
    TELL(fstat(number, &about));
    TELL(about.st_nlink);
    TELL(open("nameless", O_RDONLY));
    TELL(close(number));
}

static void locks(void) {
    struct flock lock = {.l_type = F_WRLCK, .l_whence = SEEK_SET};
    int number = open("locked", O_RDWR | O_CREAT, 0666);
    TELL(fcntl(number, F_SETLK, &lock));
    TELL(fcntl(number, F_GETLK, &lock));
    TELL(lock.l_type == F_UNLCK);
    close(number);
}

static void devices(void) {
    char text[4];
    int number = open("/dev/null", O_RDWR);
    TELL(number >= 0 ? write(number, "gone", 4) : -1);
    TELL(read(number, text, 4));
    close(number);
    TELL(lseek(99, 0, SEEK_CUR));
}

static void too_many(void) {
    int number, last = -1, count = 0;
    while (count < 4000 && (number = open("file", O_RDONLY)) >= 0) last = number, count++;
    printf("%d %s\n", count > 20, error_name(errno));
    for (; last > 2; last--) close(last);
}

int main(void) {
    flags();
    bytes();
    sizes();
    appending();
    duplicates();
    pieces();
    nameless();
    locks();
    devices();
    too_many();
    fflush(stdout);
    TELL(write(1, "by write\n", 9));
    TELL(write(2, "an error\n", 9));
    return 0;
}
