/* What differs from other systems: links, owners, folders that stay, names of ckrt-files, and the longest file. */
#include "telling.h"
#include <fcntl.h>
#include <sys/stat.h>
#include <unistd.h>

#define OTHER_FOLDER "/tmp" /* the second one of the two that each guest begins with */

int main(void) {
    char to[16];
    int number = open("file", O_RDWR | O_CREAT, 0666);
    TELL(link("file", "other"));
    TELL(symlink("file", "other"));
    TELL(access("other", F_OK));
    TELL(readlink("file", to, sizeof to));
    TELL(readlink("none", to, sizeof to));
    TELL(getuid() == 1000 && geteuid() == 1000 && getgid() == 1000 && getegid() == 1000);
    TELL(chown("file", 1000, 1000));
    TELL(chown("file", 0, 1000));
    TELL(chown("file", (uid_t)-1, 0));
    TELL(lchown("file", 1000, (gid_t)-1));
    TELL(lchown("file", 0, 0));
    TELL(fchown(number, 1000, 1000));
    TELL(fchown(number, 1000, 0));
    TELL(rename("file", OTHER_FOLDER "/file"));
    TELL(rename(OTHER_FOLDER, "/other"));
    TELL(rmdir("/guest"));
    TELL(rmdir(OTHER_FOLDER));
    TELL(rmdir("/dev"));
    TELL(rename(".", "other"));
    TELL(open("stdout", O_WRONLY | O_CREAT, 0666));
    TELL(open("stderr", O_RDONLY));
    TELL(open(".ckrt-files", O_WRONLY | O_CREAT, 0666));
    TELL(mkdir(".ckrt-files.new", 0777));
    TELL(rename("file", "stdout"));
    TELL(fcntl(number, F_SETLK, &(struct flock){.l_type = F_WRLCK, .l_whence = SEEK_SET}));
    TELL(isatty(1));
    TELL(lseek(number, 0x7FFFFFFF, SEEK_SET));
    TELL(write(number, "x", 1));
    TELL(lseek(number, 1, SEEK_CUR));
    TELL(pwrite(number, "x", 1, -1));
    TELL(ftruncate(number, -1));
    TELL(lseek(number, -1, SEEK_SET));
    TELL(open("/dev/null", O_WRONLY) >= 0);
    TELL(open("/dev/zero", O_RDONLY));
    return 0;
}
