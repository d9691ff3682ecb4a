/* Folders of a guest with files (POSIX, <dirent.h>). */
#ifndef GUEST_DIRENT_H
#define GUEST_DIRENT_H

#pragma GCC system_header

#include <sys/types.h>

#ifdef __cplusplus
extern "C" {
#endif

#define DT_UNKNOWN 0
#define DT_CHR 2
#define DT_DIR 4
#define DT_REG 8

struct dirent {
    ino_t d_ino;
    unsigned char d_type;
    char d_name[256];
};

typedef struct __guest_folder_stream DIR;

/* The names are those that are there when the folder is opened, or wound back. */
DIR *opendir(const char *path);
DIR *fdopendir(int number);
int closedir(DIR *stream);
struct dirent *readdir(DIR *stream);
int readdir_r(DIR *__restrict stream, struct dirent *__restrict to, struct dirent **__restrict result);
void rewinddir(DIR *stream);
long telldir(DIR *stream);
void seekdir(DIR *stream, long place);
int dirfd(DIR *stream);
int alphasort(const struct dirent **one, const struct dirent **other);
int scandir(const char *path, struct dirent ***result, int (*is_chosen)(const struct dirent *),
            int (*compare)(const struct dirent **, const struct dirent **));

#ifdef __cplusplus
}
#endif

#endif
