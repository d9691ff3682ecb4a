/* What it is given: read by each call, then appended to, cut, renamed, written anew and removed. */
#include "telling.h"
#include <dirent.h>
#include <fcntl.h>
#include <stdlib.h>
#include <sys/stat.h>
#include <unistd.h>

static int compare(const void *one, const void *other) { return strcmp(*(char *const *)one, *(char *const *)other); }

static void list(const char *name) {
    char *names[32];
    int count = 0;
    DIR *folder = opendir(name);
    for (struct dirent *entry; (entry = readdir(folder));) {
        if (entry->d_name[0] != '.') names[count++] = strdup(entry->d_name);
    }
    closedir(folder);
    qsort(names, (size_t)count, sizeof *names, compare);
    for (int i = 0; i < count; i++) {
        printf("%s/%s\n", name, names[i]);
        free(names[i]);
    }
}

static void read_all(const char *name) {
    char bytes[100], *line = NULL;
    size_t room = 0;
    struct stat about;
    unsigned sum = 0;
    int number = open(name, O_RDONLY);
    TELL(fstat(number, &about));
    for (ssize_t count; (count = read(number, bytes, sizeof bytes)) > 0;) {
        for (ssize_t i = 0; i < count; i++) sum = sum * 31 + (unsigned char)bytes[i];
    }
    printf("%s: %d bytes, %u\n", name, (int)about.st_size, sum);
    TELL(pread(number, bytes, 5, about.st_size / 2));
    TELL((unsigned char)bytes[0]);
    TELL(lseek(number, -1, SEEK_END));
    close(number);
    FILE *file = fopen(name, "r");
    TELL(fseek(file, 2, SEEK_SET));
    TELL(getline(&line, &room, file));
    TELL(ftell(file));
    free(line);
    fclose(file);
}

int main(void) {
    list(".");
    list("conf");
    list("conf/deep");
    read_all("data.csv");
    read_all("conf/model.bin");
    read_all("conf/empty");
    TELL(access("conf/deep/er/text", R_OK));
    TELL(open("conf/deep/er/none", O_RDONLY));

    FILE *file = fopen("data.csv", "a");
    TELL(fputs("5,6\n", file) < 0);
    TELL(fclose(file));
    read_all("data.csv");
    int number = open("conf/model.bin", O_RDWR);
    TELL(pwrite(number, "changed", 7, 5000));
    TELL(ftruncate(number, 6000));
    close(number);
    read_all("conf/model.bin");
    TELL(rename("conf/deep", "moved"));
    list("moved");
    TELL(open("conf/empty", O_WRONLY | O_TRUNC));
    TELL(unlink("moved/er/text"));
    TELL(rmdir("moved/er"));
    TELL(truncate("data.csv", 3));
    return 0;
}
