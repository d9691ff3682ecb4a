/* The kin of the calls on names: by an open folder and by a descriptor; times; streams of folders; how streams keep and place bytes. */
#include "telling.h"
#include <dirent.h>
#include <fcntl.h>
#include <stdlib.h>
#include <sys/ioctl.h>
#include <sys/stat.h>
#include <sys/time.h>
#include <unistd.h>

enum { NONE = 99, WINDOW = 0x5413 }; /* a number that no file has, and what a terminal is asked for */

static const struct timespec times[2] = {{1000, 0}, {2000, 0}}, later[2] = {{3000, 0}, {4000, 0}};
static const struct timespec one_left[2] = {{0, UTIME_OMIT}, {5000, 0}}, wrong[2] = {{1000, 1000000000}, {2000, 0}};

static void fill(const char *name, const char *text) {
    FILE *file = fopen(name, "w");
    fputs(text, file);
    fclose(file);
}

static void describe(int folder, const char *name) {
    struct stat about;
    if (TELL(fstatat(folder, name, &about, 0)) < 0) return;
    printf("%s: mode %o, %d bytes, %d %d\n", name, (unsigned)about.st_mode & 07777, (int)about.st_size, (int)about.st_atime, (int)about.st_mtime);
}

static void by_folder(int folder) {
    struct stat about, other;
    TELL(utimensat(folder, "file", times, 0));
    describe(folder, "file");
    describe(folder, "none");
    describe(AT_FDCWD, "file");
    describe(NONE, "file");
    TELL(fstatat(folder, "file", &about, AT_SYMLINK_NOFOLLOW));
    TELL(fstatat(NONE, "/dev/null", &other, 0));
    TELL(faccessat(folder, "file", R_OK | W_OK, 0));
    TELL(faccessat(folder, "file", F_OK, AT_EACCESS));
    TELL(faccessat(folder, "file", X_OK, 0));
    TELL(faccessat(folder, "none", F_OK, 0));
    TELL(faccessat(folder, "file/none", F_OK, 0));
    TELL(faccessat(folder, "file", 64, 0));
    TELL(faccessat(NONE, "file", F_OK, 0));
    TELL(fchmodat(folder, "file", 0711, 0));
    describe(folder, "file");
    TELL(faccessat(folder, "file", X_OK, 0));
    TELL(fchmodat(folder, "none", 0711, 0));
    TELL(fchmodat(NONE, "file", 0711, 0));
}

static void by_descriptor(int number) {
    struct stat about;
    TELL(fchmod(number, 0640));
    describe(AT_FDCWD, "folder/file");
    TELL(fchmod(NONE, 0640));
    TELL(fchown(number, (uid_t)-1, (gid_t)-1));
    TELL(fchown(NONE, (uid_t)-1, (gid_t)-1));
    TELL(lchown("folder/file", (uid_t)-1, (gid_t)-1));
    TELL(lchown("none", (uid_t)-1, (gid_t)-1));
    TELL(ioctl(number, WINDOW, &about));
    TELL(ioctl(NONE, WINDOW, &about));
    sync();
}

static void of_times(int folder, int number) {
    const struct timeval seconds[2] = {{6000, 0}, {7000, 0}}, too_many[2] = {{6000, 1000000}, {7000, 0}};
    TELL(futimens(number, later));
    describe(folder, "file");
    TELL(futimens(number, wrong));
    TELL(futimens(NONE, later));
    TELL(utimensat(folder, "file", one_left, 0));
    describe(folder, "file");
    TELL(utimensat(folder, "file", wrong, 0));
    TELL(utimensat(folder, "none", times, 0));
    TELL(utimensat(NONE, "file", times, 0));
    TELL(utimes("folder/file", seconds));
    describe(folder, "file");
    TELL(utimes("folder/file", too_many));
    TELL(utimes("none", seconds));
    TELL(futimens(number, NULL));
    TELL(utimes("folder/file", NULL));
}

static void of_folders(int number) {
    TELL_NULL(fdopendir(NONE));
    TELL_NULL(fdopendir(number));
    int folder = open("folder", O_RDONLY | O_DIRECTORY);
    DIR *stream = fdopendir(folder);
    TELL(dirfd(stream) == folder);
    long place = telldir(stream);
    char first[256];
    strcpy(first, readdir(stream)->d_name);
    int count = 1;
    while (readdir(stream)) count++;
    TELL(count);
    seekdir(stream, place);
    TELL(strcmp(first, readdir(stream)->d_name));
    TELL(closedir(stream));
    TELL(fcntl(folder, F_GETFD));
}

static void of_streams(void) {
    char buffer[64], *line = NULL;
    size_t room = 0;
    FILE *file = fopen("stream", "w+");
    setbuffer(file, buffer, sizeof buffer);
    fputs("one;two;three", file);
    TELL(fseeko(file, 4, SEEK_SET));
    TELL((long)ftello(file));
    TELL(getdelim(&line, &room, ';', file));
    puts(line);
    TELL(getdelim(&line, &room, ';', file));
    puts(line);
    TELL(getdelim(&line, &room, ';', file) == -1);
    TELL(fseeko(file, -2, SEEK_END));
    TELL((long)ftello(file));
    TELL(fseeko(file, -1, SEEK_SET));
    TELL(fclose(file));
    free(line);
    file = fopen("lines", "w");
    setlinebuf(file);
    fputs("whole\npart", file);
    struct stat about;
    TELL(stat("lines", &about));
    TELL((long)about.st_size >= 6);
    setbuf(file, NULL);
    TELL(fclose(file));
    describe(AT_FDCWD, "missing");
}

int main(void) {
    umask(022);
    mkdir("folder", 0777);
    fill("folder/file", "text");
    int folder = open("folder", O_RDONLY | O_DIRECTORY), number = open("folder/file", O_RDWR);
    by_folder(folder);
    by_descriptor(number);
    of_times(folder, number);
    of_folders(number);
    of_streams();
    return 0;
}
