/* The calls on names: folders, removing, renaming, what a file is, and where the program is. */
#include "telling.h"
#include <dirent.h>
#include <fcntl.h>
#include <stdlib.h>
#include <sys/stat.h>
#include <sys/time.h>
#include <unistd.h>
#include <utime.h>

static void fill(const char *name, const char *text) {
    FILE *file = fopen(name, "w");
    fputs(text, file);
    fclose(file);
}

static int compare(const void *one, const void *other) { return strcmp(*(char *const *)one, *(char *const *)other); }

/* The names in a folder, in their order. */
static void list(const char *name) {
    char *names[32];
    int count = 0;
    DIR *folder = opendir(name);
    printf("%s:", name);
    if (!folder) {
        printf(" %s\n", error_name(errno));
        return;
    }
    for (struct dirent *entry; (entry = readdir(folder));) names[count++] = strdup(entry->d_name);
    rewinddir(folder);
    printf(" %d,", readdir(folder) != NULL);
    qsort(names, (size_t)count, sizeof *names, compare);
    for (int i = 0; i < count; i++) {
        printf(" %s", names[i]);
        free(names[i]);
    }
    printf(", %d\n", closedir(folder));
}

static void describe(const char *name) {
    struct stat about;
    if (TELL(stat(name, &about)) < 0) return;
    printf("%s: %s, %d links, mode %o", name, S_ISDIR(about.st_mode) ? "folder" : S_ISREG(about.st_mode) ? "file" : "other",
           S_ISDIR(about.st_mode) ? 0 : (int)about.st_nlink, (unsigned)about.st_mode & 07777);
    if (S_ISREG(about.st_mode)) printf(", %d bytes", (int)about.st_size);
    printf("\n");
}

static void folders(void) {
    TELL(mkdir("one", 0777));
    TELL(mkdir("one", 0777));
    TELL(mkdir("one/two", 0750));
    TELL(mkdir("one/two/three/", 0777));
    TELL(mkdir("none/two", 0777));
    fill("one/file", "text");
    TELL(mkdir("one/file/two", 0777));
    TELL(mkdir("one/file", 0777));
    TELL(mkdir("", 0777));
    list("one");
    list("one/two/../two");
    list("one/file");
    list("missing");
    TELL(rmdir("one"));
    TELL(rmdir("one/two/three"));
    TELL(rmdir("one/two/three"));
    TELL(rmdir("one/file"));
    TELL(rmdir("one/two/."));
    TELL(unlink("one/two") < 0 && errno != EISDIR && errno != EPERM ? -1 : 0);
    TELL(remove("one/two"));
    TELL(unlink("one/none"));
    list("one");
}

static void descriptions(void) {
    fill("about", "12345");
    describe("about");
    describe("one");
    describe("./one/../about");
    describe("missing");
    describe("about/more");
    describe("about/");
    describe("");
    umask(027);
    fill("masked", "");
    describe("masked");
    TELL(umask(022));
    TELL(chmod("about", 0600));
    describe("about");
    TELL(chmod("missing", 0600));
    TELL(access("about", F_OK));
    TELL(access("about", R_OK | W_OK));
    TELL(access("missing", F_OK));
    TELL(access("about", 64));
    struct utimbuf times = {1000, 2000};
    struct stat about, other;
    TELL(utime("about", &times));
    TELL(stat("about", &about));
    TELL(about.st_mtime);
    TELL(about.st_atime);
    TELL(stat("one/../about", &other));
    TELL(other.st_ino == about.st_ino && other.st_dev == about.st_dev);
    TELL(lstat("one", &other));
    TELL(other.st_ino == about.st_ino);
    TELL(chown("about", (uid_t)-1, (gid_t)-1));
    TELL(readlink("about", (char *)&other, 10));
}

static void renaming(void) {
    fill("from", "old");
    fill("to", "new and longer");
    TELL(rename("from", "to"));
    describe("to");
    TELL(rename("from", "to"));
    TELL(rename("to", "to"));
    TELL(rename("to", "one"));
    TELL(rename("one", "to"));
    TELL(rename("one", "one/inner"));
    TELL(rename("one", "1"));
    describe("1/file");
    TELL(mkdir("empty", 0777));
    TELL(rename("empty", "1"));
    TELL(rename("1", "empty"));
    describe("empty/file");
    TELL(rename("to", "empty/deep"));
    TELL(rename("to", "none/deep"));
    TELL(rename("empty/deep", "to/"));
    TELL(rename("", "to"));
    TELL(rename("empty/deep", "up"));
}

static void where(void) {
    char name[1024], *last;
    TELL_NULL(getcwd(name, sizeof name));
    TELL(mkdir("room", 0777));
    TELL(chdir("room"));
    TELL_NULL(getcwd(name, sizeof name));
    last = strrchr(name, '/');
    puts(last);
    fill("inside", "x");
    TELL(chdir(".."));
    describe("room/inside");
    TELL(chdir("missing"));
    TELL(chdir("about"));
    TELL_NULL(getcwd(name, 2));
    char *whole = realpath("room/../room/inside", NULL);
    puts(whole + strlen(whole) - 12);
    free(whole);
    int folder = open("room", O_RDONLY | O_DIRECTORY);
    TELL(mkdirat(folder, "at", 0777));
    TELL(openat(folder, "inside", O_RDONLY) >= 0);
    TELL(renameat(folder, "inside", folder, "moved"));
    TELL(unlinkat(folder, "at", AT_REMOVEDIR));
    TELL(unlinkat(folder, "moved", 0));
    TELL(fchdir(folder));
    list(".");
    TELL(chdir(".."));
}

static void lengths(void) {
    char name[300], path[1200];
    memset(name, 'n', 256);
    name[256] = 0;
    TELL(mkdir(name, 0777));
    name[255] = 0;
    TELL(mkdir(name, 0777));
    TELL(rmdir(name));
    memset(path, 0, sizeof path);
    for (int i = 0; i < 1100; i += 2) strcpy(path + i, "./");
    TELL(access(path, F_OK) == 0 || errno == ENAMETOOLONG);
}

static void names_of_files(void) {
    char own[] = "made.XXXXXX", wrong[] = "made";
    int number = mkstemp(own);
    TELL(number >= 0);
    TELL(access(own, R_OK));
    TELL(unlink(own));
    close(number);
    TELL(mkstemp(wrong));
    char folder[] = "folder.XXXXXX";
    TELL_NULL(mkdtemp(folder));
    TELL(rmdir(folder));
}

static int is_wanted(const struct dirent *entry) { return entry->d_name[0] != '.'; }

static void scanning(void) {
    struct dirent **found;
    int count = scandir("empty", &found, is_wanted, alphasort);
    for (int i = 0; i < count; i++) {
        puts(found[i]->d_name);
        free(found[i]);
    }
    free(found);
}

int main(void) {
    umask(022);
    folders();
    descriptions();
    renaming();
    where();
    lengths();
    names_of_files();
    scanning();
    return 0;
}
