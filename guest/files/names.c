/* The calls on files by their names, and what is asked and told of files. */
#include "descriptors.h"
#include "../source/clock.h"
#include "frames.h"
#include <errno.h>
#include <fcntl.h>
#include <stdio.h>
#include <stdlib.h>
#include <string.h>
#include <sys/stat.h>
#include <sys/time.h>
#include <unistd.h>
#include <utime.h>

enum { DEVICE_OUT = 1, DEVICE_APART = 2, USER = 1000, BLOCKS_OF = 512, TICKS_A_SECOND = 1000, NANOSECONDS_A_TICK = 1000000 };

mode_t __guest_umask = 022;

/* Does something with the place of a name, under the lock. */
static int with_place(int folder, const char *path, int (*act)(struct place *place, uintptr_t value), uintptr_t value) {
    struct node *begin = NULL;
    struct place place;
    int state = __guest_files_lock();
    int result = *path == '/' ? 0 : __guest_begin_of(folder, &begin);
    if (result == 0) result = __guest_find(begin, path, &place);
    if (result == 0) result = act(&place, value);
    __guest_files_unlock(state);
    return __guest_answer(result);
}

/* Does something with what a name leads to, or a descriptor. */
static int with_node(int folder, const char *path, int (*act)(struct node *node, uintptr_t value), uintptr_t value) {
    struct node *begin = NULL, *node;
    int state = __guest_files_lock();
    int result = *path == '/' ? 0 : __guest_begin_of(folder, &begin);
    if (result == 0) result = __guest_find_node(begin, path, &node);
    if (result == 0) result = act(node, value);
    __guest_files_unlock(state);
    return __guest_answer(result);
}

static int with_open(int number, int (*act)(struct node *node, uintptr_t value), uintptr_t value) {
    int state = __guest_files_lock();
    struct open_file *file = __guest_open_file(number);
    int result = file ? act(file->node, value) : -EBADF;
    __guest_files_unlock(state);
    return __guest_answer(result);
}

/* --- What a file is ----------------------------------------------------------------------------------------------- */

static struct timespec time_of(uint64_t moment) {
    return (struct timespec){(time_t)(moment / TICKS_A_SECOND), (long)(moment % TICKS_A_SECOND) * NANOSECONDS_A_TICK};
}

static mode_t kind_bits(enum kind kind) { return kind == FOLDER ? S_IFDIR : kind == PLAIN ? S_IFREG : S_IFCHR; }

static int tell(struct node *node, uintptr_t to) {
    struct stat *told = (struct stat *)to;
    *told = (struct stat){
        .st_dev = __guest_goes_out(node) ? DEVICE_OUT : DEVICE_APART,
        .st_ino = node->number,
        .st_mode = kind_bits(node->kind) | node->mode,
        .st_nlink = node->folder ? 1 : 0,
        .st_uid = USER,
        .st_gid = USER,
        .st_size = (off_t)node->content.size,
        .st_blksize = BLOCK_BYTES,
        .st_blocks = (blkcnt_t)((node->content.size + BLOCKS_OF - 1) / BLOCKS_OF),
        .st_atim = time_of(node->accessed),
        .st_mtim = time_of(node->changed),
        .st_ctim = time_of(node->changed),
    };
    return 0;
}

int fstat(int number, struct stat *to) { return with_open(number, tell, (uintptr_t)to); }

int fstatat(int folder, const char *restrict path, struct stat *restrict to, int flags) {
    (void)flags; /* there are no links */
    return with_node(folder, path, tell, (uintptr_t)to);
}

int stat(const char *restrict path, struct stat *restrict to) { return fstatat(AT_FDCWD, path, to, 0); }

int lstat(const char *restrict path, struct stat *restrict to) { return fstatat(AT_FDCWD, path, to, 0); }

/* Modes forbid nothing but to run a file as a program, which there is none of. */
static int allow(struct node *node, uintptr_t wanted) {
    if (wanted & ~(uintptr_t)(R_OK | W_OK | X_OK)) return -EINVAL;
    return (wanted & X_OK) && node->kind != FOLDER && !(node->mode & 0111) ? -EACCES : 0;
}

int faccessat(int folder, const char *path, int wanted, int flags) {
    (void)flags;
    return with_node(folder, path, allow, (uintptr_t)wanted);
}

int access(const char *path, int wanted) { return faccessat(AT_FDCWD, path, wanted, 0); }

/* What a name leads to is never a link. */
static int not_a_link(struct node *node, uintptr_t unused) {
    (void)node, (void)unused;
    return -EINVAL;
}

ssize_t readlink(const char *restrict path, char *restrict to, size_t room) {
    (void)to, (void)room;
    return with_node(AT_FDCWD, path, not_a_link, 0);
}

/* Links there are none, as on a file system without them. */
int link(const char *path, const char *other) {
    (void)path, (void)other;
    return __guest_answer(-EPERM);
}

int symlink(const char *path, const char *other) { return link(path, other); }

/* --- What is told of a file: it is kept, and changes nothing ------------------------------------------------------ */

static int set_mode(struct node *node, uintptr_t mode) {
    node->mode = (mode_t)mode & 07777;
    return 0;
}

int chmod(const char *path, mode_t mode) { return with_node(AT_FDCWD, path, set_mode, mode); }
int fchmod(int number, mode_t mode) { return with_open(number, set_mode, mode); }
int fchmodat(int folder, const char *path, mode_t mode, int flags) {
    (void)flags;
    return with_node(folder, path, set_mode, mode);
}

mode_t umask(mode_t mode) {
    int state = __guest_files_lock();
    mode_t old = __guest_umask;
    __guest_umask = mode & 0777;
    __guest_files_unlock(state);
    return old;
}

struct owners {
    uid_t user;
    gid_t group;
};

/* There is one user, who has one group. */
static int set_owners(struct node *node, uintptr_t owners) {
    struct owners to = *(const struct owners *)owners;
    (void)node;
    return (to.user == USER || to.user == (uid_t)-1) && (to.group == USER || to.group == (gid_t)-1) ? 0 : -EPERM;
}

int chown(const char *path, uid_t user, gid_t group) {
    return with_node(AT_FDCWD, path, set_owners, (uintptr_t)&(struct owners){user, group});
}
int lchown(const char *path, uid_t user, gid_t group) { return chown(path, user, group); }
int fchown(int number, uid_t user, gid_t group) {
    return with_open(number, set_owners, (uintptr_t)&(struct owners){user, group});
}

uid_t getuid(void) { return USER; }
uid_t geteuid(void) { return USER; }
gid_t getgid(void) { return USER; }
gid_t getegid(void) { return USER; }

static bool is_time(const struct timespec *time) {
    return time->tv_nsec == UTIME_NOW || time->tv_nsec == UTIME_OMIT || (time->tv_nsec >= 0 && time->tv_nsec < 1000000000);
}

static void set_time(uint64_t *moment, const struct timespec *time) {
    if (!time || time->tv_nsec == UTIME_NOW) *moment = __guest_now();
    else if (time->tv_nsec != UTIME_OMIT) *moment = __guest_moment(time);
}

static int set_times(struct node *node, uintptr_t both) {
    const struct timespec *times = (const struct timespec *)both;
    if (times && !(is_time(&times[0]) && is_time(&times[1]))) return -EINVAL;
    set_time(&node->accessed, times);
    set_time(&node->changed, times ? &times[1] : NULL);
    return 0;
}

int utimensat(int folder, const char *path, const struct timespec times[2], int flags) {
    (void)flags;
    return with_node(folder, path, set_times, (uintptr_t)times);
}

int futimens(int number, const struct timespec times[2]) { return with_open(number, set_times, (uintptr_t)times); }

int utimes(const char *path, const struct timeval times[2]) {
    struct timespec both[2];
    for (int i = 0; times && i < 2; i++) both[i] = (struct timespec){times[i].tv_sec, times[i].tv_usec * 1000};
    return with_node(AT_FDCWD, path, set_times, (uintptr_t)(times ? both : NULL));
}

int utime(const char *path, const struct utimbuf *times) {
    struct timespec both[2] = {{times ? times->actime : 0, 0}, {times ? times->modtime : 0, 0}};
    return with_node(AT_FDCWD, path, set_times, (uintptr_t)(times ? both : NULL));
}

/* --- Names that come and go --------------------------------------------------------------------------------------- */

static int resize(struct node *node, uintptr_t size) {
    return node->kind == FOLDER ? -EISDIR : __guest_resize(node, (off_t)size);
}

int truncate(const char *path, off_t size) { return with_node(AT_FDCWD, path, resize, (uintptr_t)size); }

static int make_folder(struct place *place, uintptr_t mode) {
    if (place->node) return -EEXIST;
    if (__guest_is_reserved(place)) return -EACCES;
    if (!__guest_has_room_for_name(place, NULL)) return -ENAMETOOLONG;
    struct node *node = __guest_make_node(place, FOLDER, (mode_t)mode & ~__guest_umask & 07777);
    if (!node) return -ENOSPC;
    __guest_put_out(node);
    return 0;
}

int mkdirat(int folder, const char *path, mode_t mode) { return with_place(folder, path, make_folder, mode); }
int mkdir(const char *path, mode_t mode) { return mkdirat(AT_FDCWD, path, mode); }

/* Takes a name away; what goes out before is that it did. */
static int remove_node(struct node *node) {
    if (node->is_out && __guest_goes_out(node)) __guest_put_removal(node);
    __guest_remove_node(node);
    return 0;
}

static int remove_file(struct place *place, uintptr_t unused) {
    (void)unused;
    if (!place->node) return -ENOENT;
    if (place->node->kind == FOLDER) return -EISDIR;
    return place->node->kind == PLAIN ? remove_node(place->node) : -EPERM;
}

static int remove_folder(struct place *place, uintptr_t unused) {
    (void)unused;
    if (!place->node) return -ENOENT;
    if (place->node->kind != FOLDER) return -ENOTDIR;
    if (place->node->is_fixed) return -EBUSY;
    if (!place->name) return place->node->first ? -ENOTEMPTY : -EINVAL;
    return place->node->first ? -ENOTEMPTY : remove_node(place->node);
}

static int remove_any(struct place *place, uintptr_t unused) {
    bool is_folder = place->node && place->node->kind == FOLDER;
    return is_folder ? remove_folder(place, unused) : remove_file(place, unused);
}

int unlink(const char *path) { return with_place(AT_FDCWD, path, remove_file, 0); }
int rmdir(const char *path) { return with_place(AT_FDCWD, path, remove_folder, 0); }
int remove(const char *path) { return with_place(AT_FDCWD, path, remove_any, 0); }
int unlinkat(int folder, const char *path, int flags) {
    return with_place(folder, path, flags & AT_REMOVEDIR ? remove_folder : remove_file, 0);
}

/* --- rename ------------------------------------------------------------------------------------------------------- */

static bool is_within(const struct node *node, const struct node *folder) {
    while (node != folder && node->folder && node->folder != node) node = node->folder;
    return node == folder;
}

static int may_rename(const struct place *from, const struct place *to) {
    if (!from->node) return -ENOENT;
    if (!from->name || !to->name) return -EBUSY;
    if (__guest_is_reserved(to)) return -EACCES;
    if (from->node->is_fixed || (to->node && to->node->is_fixed)) return -EBUSY;
    if (__guest_goes_out(from->node) != __guest_goes_out(to->folder)) return -EXDEV;
    if (is_within(to->folder, from->node)) return -EINVAL;
    if (!__guest_has_room_for_name(to, from->node)) return -ENAMETOOLONG;
    bool is_folder = from->node->kind == FOLDER;
    if (to->needs_folder && !is_folder) return -ENOTDIR;
    if (!to->node) return 0;
    if (is_folder && to->node->kind != FOLDER) return -ENOTDIR;
    if (!is_folder && to->node->kind == FOLDER) return -EISDIR;
    return to->node->first ? -ENOTEMPTY : 0;
}

/* What is put out is the renaming of what is out, and the making of what isn't. */
static int move(const struct place *from, const struct place *to) {
    struct node *node = from->node;
    char *name = strndup(to->name, to->length);
    if (!name) return -ENOSPC;
    bool goes_out = __guest_goes_out(node);
    if (goes_out) __guest_put_out(to->folder);
    if (node->is_out && goes_out) {
        __guest_put_out_all(node);
        __guest_put_renaming(node, to);
        if (to->node) __guest_remove_node(to->node);
    } else if (to->node) {
        remove_node(to->node);
    }
    __guest_move_node(node, to, name);
    __guest_put_out_all(node);
    return 0;
}

int renameat(int from_folder, const char *from, int to_folder, const char *to) {
    struct node *from_begin = NULL, *to_begin = NULL;
    struct place from_place, to_place;
    int state = __guest_files_lock();
    int result = *from == '/' ? 0 : __guest_begin_of(from_folder, &from_begin);
    if (result == 0 && *to != '/') result = __guest_begin_of(to_folder, &to_begin);
    if (result == 0) result = __guest_find(from_begin, from, &from_place);
    if (result == 0) result = __guest_find(to_begin, to, &to_place);
    if (result == 0) result = may_rename(&from_place, &to_place);
    if (result == 0 && from_place.node != to_place.node) result = move(&from_place, &to_place);
    __guest_files_unlock(state);
    return __guest_answer(result);
}

int rename(const char *from, const char *to) { return renameat(AT_FDCWD, from, AT_FDCWD, to); }

/* --- The working folder ------------------------------------------------------------------------------------------- */

static int go(struct node *node, uintptr_t unused) {
    (void)unused;
    if (node->kind != FOLDER) return -ENOTDIR;
    node->uses++;
    __guest_end_use(__guest_working);
    __guest_working = node;
    return 0;
}

int chdir(const char *path) { return with_node(AT_FDCWD, path, go, 0); }
int fchdir(int number) { return with_open(number, go, 0); }

/* Writes the name of a folder from the end of a room on. NULL: it has none, or there is no room. */
static char *write_name(const struct node *node, char *begin, char *at) {
    *--at = 0;
    char *end = at;
    while (node->folder && node->folder != node) {
        size_t length = strlen(node->name);
        if ((size_t)(at - begin) < length + 1) return NULL;
        at = memcpy(at - length, node->name, length);
        *--at = '/';
        node = node->folder;
    }
    if (!node->folder) return NULL;
    if (at == end && at > begin) *--at = '/';
    return at;
}

static char *full_name(const struct node *node, char *to, size_t room) {
    char whole[MOST_PATH + 1], *name = write_name(node, whole, whole + sizeof whole);
    size_t bytes = name ? strlen(name) + 1 : 0;
    errno = !name ? ENOENT : bytes > room ? ERANGE : errno;
    if (!name || bytes > room) return NULL;
    return memcpy(to, name, bytes);
}

char *getcwd(char *to, size_t room) {
    char *own = NULL;
    if (to && room == 0) return __guest_answer(-EINVAL), NULL;
    if (!to && !(to = own = malloc(room = room ? room : MOST_PATH + 1))) return NULL;
    int state = __guest_files_lock();
    char *name = full_name(__guest_working, to, room);
    __guest_files_unlock(state);
    if (!name) free(own);
    return name;
}

static int tell_name(struct node *node, uintptr_t to) {
    return full_name(node, (char *)to, MOST_PATH + 1) ? 0 : -errno;
}

char *realpath(const char *restrict path, char *restrict to) {
    char *own = NULL;
    if (!to && !(to = own = malloc(MOST_PATH + 1))) return NULL;
    if (with_node(AT_FDCWD, path, tell_name, (uintptr_t)to) == 0) return to;
    free(own);
    return NULL;
}

/* --- Limits and names of passing files ---------------------------------------------------------------------------- */

static int limit(struct node *node, uintptr_t name) {
    (void)node;
    switch (name) {
    case _PC_LINK_MAX: return 1;
    case _PC_NAME_MAX: return MOST_NAME;
    case _PC_PATH_MAX: return MOST_PATH + 1;
    case _PC_NO_TRUNC:
    case _PC_CHOWN_RESTRICTED: return 1;
    default: return -EINVAL;
    }
}

long pathconf(const char *path, int name) { return with_node(AT_FDCWD, path, limit, (uintptr_t)name); }
long fpathconf(int number, int name) { return with_open(number, limit, (uintptr_t)name); }

/* As mkstemp of the C library: the last six bytes are changed until there is no such name. */
char *mkdtemp(char *name) {
    size_t length = strlen(name);
    if (length < 6 || strcmp(name + length - 6, "XXXXXX") != 0) return __guest_answer(-EINVAL), NULL;
    for (int number = 0; number < 1000000; number++) {
        for (int i = 0, rest = number; i < 6; i++, rest /= 10) name[length - 1 - (size_t)i] = (char)('0' + rest % 10);
        if (mkdir(name, 0700) == 0) return name;
        if (errno != EEXIST) return NULL;
    }
    return NULL;
}
