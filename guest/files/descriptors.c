/* open, read, write and their kin. */
#include "descriptors.h"
#include "../source/calls.h"
#include "../source/clock.h"
#include "../source/locks.h"
#include "frames.h"
#include <errno.h>
#include <fcntl.h>
#include <stdarg.h>
#include <stdlib.h>
#include <sys/ioctl.h>
#include <sys/stat.h>
#include <sys/uio.h>
#include <unistd.h>

static struct node consoles[] = {
    {.kind = INPUT, .mode = 0666, .number = 6, .uses = 1},
    {.kind = OUTPUT, .mode = 0666, .number = 7, .uses = 1},
    {.kind = ERRORS, .mode = 0666, .number = 8, .uses = 1},
};
static struct open_file console_files[] = {
    {&consoles[0], 0, O_RDONLY, 2}, {&consoles[1], 0, O_WRONLY, 2}, {&consoles[2], 0, O_WRONLY, 2}};
static struct open_file *open_files[MOST_OPEN] = {&console_files[0], &console_files[1], &console_files[2]};

struct open_file *__guest_open_file(int number) {
    return number >= 0 && number < MOST_OPEN ? open_files[number] : NULL;
}

int __guest_begin_of(int number, struct node **begin) {
    struct open_file *file = __guest_open_file(number);
    *begin = number == AT_FDCWD ? __guest_working : file ? file->node : NULL;
    return !*begin ? -EBADF : (*begin)->kind == FOLDER ? 0 : -ENOTDIR;
}

/* The least number from one on that isn't open. */
static int free_number(int least) {
    for (int number = least; number < MOST_OPEN; number++) {
        if (!open_files[number]) return number;
    }
    return -EMFILE;
}

/* Gives a node a number that is free. */
static int open_by(int number, struct open_file *file, struct node *node, int flags) {
    *file = (struct open_file){.node = node, .flags = flags, .uses = 1};
    node->uses++;
    if (reads(file)) node->content.was_open_to_read = true;
    open_files[number] = file;
    return number;
}

int __guest_open_node(struct node *node, int flags) {
    int number = free_number(0);
    struct open_file *file = number < 0 ? NULL : malloc(sizeof *file);
    if (number < 0) return number;
    return file ? open_by(number, file, node, flags) : -ENOSPC;
}

/* --- open and close ----------------------------------------------------------------------------------------------- */

int __guest_resize(struct node *node, off_t size) {
    if (size < 0 || node->kind != PLAIN) return -EINVAL;
    if (size > 0) __guest_put_out(node);
    int error = __guest_content_resize(&node->content, (uint32_t)size);
    if (error) return error;
    bool was_out = node->is_out;
    __guest_put_out(node);
    if (was_out && __guest_goes_out(node)) __guest_put_size(node, (uint32_t)size);
    node->changed = __guest_now();
    return 0;
}

/* A new plain file, under a place's name. */
static int create(const struct place *place, mode_t mode, struct node **node) {
    if (!place->name || place->needs_folder) return -EISDIR;
    if (__guest_is_reserved(place)) return -EACCES;
    if (!__guest_has_room_for_name(place, NULL)) return -ENAMETOOLONG;
    *node = __guest_make_node(place, PLAIN, mode & 07777);
    if (!*node) return -ENOSPC;
    __guest_put_out(*node);
    return 0;
}

/* Whether a node that is there may be opened. */
static int may_open(const struct node *node, int flags) {
    bool is_writing = (flags & O_ACCMODE) != O_RDONLY;
    if ((flags & O_CREAT) && (flags & O_EXCL)) return -EEXIST;
    if (node->kind == FOLDER && (is_writing || (flags & O_CREAT))) return -EISDIR;
    if (node->kind != FOLDER && (flags & O_DIRECTORY)) return -ENOTDIR;
    if (node->content.is_lost && !(flags & O_TRUNC) && (flags & O_ACCMODE) != O_WRONLY) return -EIO;
    return 0;
}

/* What a place has, or a new file; cut, if that is asked for. */
static int prepare(const struct place *place, int flags, mode_t mode, struct node **node) {
    bool is_cut = (flags & O_TRUNC) && (flags & O_ACCMODE) != O_RDONLY;
    *node = place->node;
    if (!*node) return create(place, mode, node);
    int error = may_open(*node, flags);
    return !error && is_cut && (*node)->kind == PLAIN ? __guest_resize(*node, 0) : error;
}

/* Room comes first: where there is none no file is made or cut. It may come from the very file. */
static int open_place(const struct place *place, int flags, mode_t mode) {
    struct node *node;
    if (!place->node && !(flags & O_CREAT)) return -ENOENT;
    int number = free_number(0);
    struct open_file *file = number < 0 ? NULL : malloc(sizeof *file);
    if (number < 0 || !file) return number < 0 ? number : -ENOSPC;
    int error = prepare(place, flags, mode, &node);
    if (!error) return open_by(number, file, node, flags & ~(O_CREAT | O_EXCL | O_TRUNC | O_DIRECTORY | O_CLOEXEC));
    free(file);
    return error;
}

static int open_at(int folder, const char *path, int flags, mode_t mode) {
    struct node *begin = NULL;
    struct place place;
    pthread_testcancel();
    if ((flags & O_ACCMODE) == O_ACCMODE) return __guest_answer(-EINVAL);
    int state = __guest_files_lock();
    int number = *path == '/' ? 0 : __guest_begin_of(folder, &begin);
    if (number == 0) number = __guest_find(begin, path, &place);
    if (number == 0) number = open_place(&place, flags, mode & ~__guest_umask);
    __guest_files_unlock(state);
    return __guest_answer(number);
}

/* The mode is there with O_CREAT alone. */
int open(const char *path, int flags, ...) {
    va_list rest;
    va_start(rest, flags);
    int number = open_at(AT_FDCWD, path, flags, flags & O_CREAT ? (mode_t)va_arg(rest, int) : 0);
    va_end(rest);
    return number;
}

int openat(int folder, const char *path, int flags, ...) {
    va_list rest;
    va_start(rest, flags);
    int number = open_at(folder, path, flags, flags & O_CREAT ? (mode_t)va_arg(rest, int) : 0);
    va_end(rest);
    return number;
}

int creat(const char *path, mode_t mode) { return open_at(AT_FDCWD, path, O_WRONLY | O_CREAT | O_TRUNC, mode); }

static int close_number(int number) {
    struct open_file *file = __guest_open_file(number);
    if (!file) return -EBADF;
    open_files[number] = NULL;
    if (--file->uses) return 0;
    __guest_end_use(file->node);
    free(file);
    return 0;
}

int __guest_close(int number) {
    int state = __guest_files_lock(), result = close_number(number);
    __guest_files_unlock(state);
    return __guest_answer(result);
}

int close(int number) {
    pthread_testcancel();
    return __guest_close(number);
}

/* --- read --------------------------------------------------------------------------------------------------------- */

static void unlock_input(void *unused) {
    (void)unused;
    pthread_mutex_unlock(&__guest_input_lock.mutex);
}

/* As from a terminal: up to the end of a line. */
static void read_console(char *to, uint32_t count, uint32_t *came) {
    pthread_mutex_lock(&__guest_input_lock.mutex);
    pthread_cleanup_push(unlock_input, NULL);
    while (*came < count && (*came == 0 || to[*came - 1] != '\n')) {
        uint32_t byte = runtime(CALL_GETC, 0, 0, 0, 0).result;
        if (byte == UINT32_MAX) break;
        to[*came] = (char)byte;
        ++*came;
    }
    pthread_cleanup_pop(1);
}

/* Of an open file, at its own offset, or at another one where `offset` isn't NULL. */
static int read_file(struct open_file *file, char *to, uint32_t count, const off_t *offset) {
    if (!file || !reads(file)) return -EBADF;
    if (offset && *offset < 0) return -EINVAL;
    if (file->node->kind == FOLDER) return -EISDIR;
    if (file->node->kind != PLAIN) return offset && file->node->kind != NOTHING ? -ESPIPE : 0;
    int count_read = __guest_content_read(&file->node->content, offset ? (uint32_t)*offset : file->offset, to, count);
    if (count_read > 0 && !offset) file->offset += (uint32_t)count_read;
    file->node->accessed = __guest_now();
    return count_read;
}

int __guest_read_some(int number, char *to, uint32_t count, uint32_t *came) {
    int state = __guest_files_lock(), result = 0;
    struct open_file *file = __guest_open_file(number);
    bool is_console = file && file->node->kind == INPUT;
    if (!is_console) result = read_file(file, to, count, NULL);
    __guest_files_unlock(state);
    if (is_console) read_console(to, count, came);
    else if (result > 0) *came = (uint32_t)result;
    return result < 0 ? result : (int)*came;
}

static uint32_t at_most(size_t count) { return count > MOST_SIZE ? MOST_SIZE : (uint32_t)count; }

ssize_t read(int number, void *to, size_t count) {
    uint32_t came = 0;
    pthread_testcancel();
    return __guest_answer(__guest_read_some(number, to, at_most(count), &came));
}

ssize_t pread(int number, void *to, size_t count, off_t offset) {
    pthread_testcancel();
    int state = __guest_files_lock(), result = read_file(__guest_open_file(number), to, at_most(count), &offset);
    __guest_files_unlock(state);
    return __guest_answer(result);
}

/* --- write -------------------------------------------------------------------------------------------------------- */

static int write_plain(struct node *node, uint32_t offset, const char *from, uint32_t count) {
    __guest_put_out(node);
    int stored = __guest_content_write(&node->content, offset, from, count);
    if (stored > 0 && __guest_goes_out(node)) __guest_put_write(node, offset, from, (uint32_t)stored);
    if (stored > 0) node->changed = __guest_now();
    return stored;
}

static int write_file(struct open_file *file, const char *from, uint32_t count, const off_t *offset) {
    if (!file || !writes(file)) return -EBADF;
    struct node *node = file->node;
    if (offset && *offset < 0) return -EINVAL;
    if (node->kind == NOTHING) return (int)count;
    if (node->kind != PLAIN && offset) return -ESPIPE;
    if (node->kind != PLAIN) {
        __guest_put_console(node->kind, from, count);
        return (int)count;
    }
    uint32_t at = offset ? (uint32_t)*offset : file->flags & O_APPEND ? node->content.size : file->offset;
    int stored = write_plain(node, at, from, count);
    if (stored > 0 && !offset) file->offset = at + (uint32_t)stored;
    return stored;
}

static ssize_t write_at(int number, const void *from, size_t count, const off_t *offset) {
    int state = __guest_files_lock();
    int result = write_file(__guest_open_file(number), from, at_most(count), offset);
    __guest_files_unlock(state);
    return __guest_answer(result);
}

ssize_t __guest_write_some(int number, const void *from, size_t count) { return write_at(number, from, count, NULL); }

ssize_t write(int number, const void *from, size_t count) {
    pthread_testcancel();
    return write_at(number, from, count, NULL);
}

ssize_t pwrite(int number, const void *from, size_t count, off_t offset) {
    pthread_testcancel();
    return write_at(number, from, count, &offset);
}

/* --- Several pieces at once --------------------------------------------------------------------------------------- */

/* All together have to be a number that a call may answer. */
static bool are_countable(const struct iovec *pieces, int count) {
    size_t sum = 0;
    for (int i = 0; i < count; i++) {
        if (__builtin_add_overflow(sum, pieces[i].iov_len, &sum) || sum > MOST_SIZE) return false;
    }
    return true;
}

/* Goes over the pieces up to one that isn't done whole. */
static ssize_t all_pieces(int number, const struct iovec *pieces, int count, bool is_read) {
    ssize_t sum = 0;
    for (int i = 0; i < count; i++) {
        ssize_t done = is_read ? read(number, pieces[i].iov_base, pieces[i].iov_len)
                               : write(number, pieces[i].iov_base, pieces[i].iov_len);
        if (done < 0) return sum ? sum : -1;
        sum += done;
        if (done < (ssize_t)pieces[i].iov_len) break;
    }
    return sum;
}

/* No other thread's call comes between two pieces, but while one waits for input. */
static ssize_t locked_pieces(int number, const struct iovec *pieces, int count, bool is_read) {
    pthread_testcancel();
    if (count <= 0 || count > IOV_MAX || !are_countable(pieces, count)) return __guest_answer(-EINVAL);
    int state = __guest_files_lock();
    struct open_file *file = __guest_open_file(number);
    bool may_wait = is_read && file && file->node->kind == INPUT;
    ssize_t sum = may_wait ? 0 : all_pieces(number, pieces, count, is_read);
    __guest_files_unlock(state);
    return may_wait ? all_pieces(number, pieces, count, is_read) : sum;
}

ssize_t readv(int number, const struct iovec *pieces, int count) { return locked_pieces(number, pieces, count, true); }

ssize_t writev(int number, const struct iovec *pieces, int count) { return locked_pieces(number, pieces, count, false); }

/* --- Offsets and sizes -------------------------------------------------------------------------------------------- */

static int seek(struct open_file *file, off_t offset, int whence) {
    if (!file) return -EBADF;
    if (file->node->kind >= INPUT) return -ESPIPE;
    if (whence != SEEK_SET && whence != SEEK_CUR && whence != SEEK_END) return -EINVAL;
    int64_t from = whence == SEEK_SET ? 0 : whence == SEEK_CUR ? file->offset : file->node->content.size;
    if (from + offset < 0) return -EINVAL;
    if (from + offset > MOST_SIZE) return -EOVERFLOW;
    file->offset = (uint32_t)(from + offset);
    return (int)file->offset;
}

off_t lseek(int number, off_t offset, int whence) {
    int state = __guest_files_lock(), result = seek(__guest_open_file(number), offset, whence);
    __guest_files_unlock(state);
    return __guest_answer(result);
}

int ftruncate(int number, off_t size) {
    int state = __guest_files_lock();
    struct open_file *file = __guest_open_file(number);
    int result = !file ? -EBADF : !writes(file) ? -EINVAL : __guest_resize(file->node, size);
    __guest_files_unlock(state);
    return __guest_answer(result);
}

/* What is written has gone out: it is durable once it is committed. */
int fsync(int number) {
    pthread_testcancel();
    int state = __guest_files_lock();
    struct open_file *file = __guest_open_file(number);
    int result = !file ? -EBADF : file->node->kind >= INPUT ? -EINVAL : 0;
    __guest_files_unlock(state);
    return __guest_answer(result);
}

int fdatasync(int number) { return fsync(number); }

void sync(void) {}

int isatty(int number) {
    int state = __guest_files_lock();
    errno = __guest_open_file(number) ? ENOTTY : EBADF;
    __guest_files_unlock(state);
    return 0;
}

int ioctl(int number, int request, ...) {
    int state = __guest_files_lock(), result = __guest_open_file(number) ? -ENOTTY : -EBADF;
    (void)request;
    __guest_files_unlock(state);
    return __guest_answer(result);
}

/* --- Descriptors of descriptors ----------------------------------------------------------------------------------- */

static int duplicate(int number, int least) {
    struct open_file *file = __guest_open_file(number);
    if (!file) return -EBADF;
    if (least < 0 || least >= MOST_OPEN) return -EINVAL;
    int other = free_number(least);
    if (other < 0) return other;
    open_files[other] = file;
    file->uses++;
    return other;
}

int dup(int number) {
    int state = __guest_files_lock(), result = duplicate(number, 0);
    __guest_files_unlock(state);
    return __guest_answer(result);
}

static int duplicate_to(int number, int other) {
    struct open_file *file = __guest_open_file(number);
    if (!file || other < 0 || other >= MOST_OPEN) return -EBADF;
    if (other == number) return other;
    file->uses++;
    close_number(other);
    open_files[other] = file;
    return other;
}

int dup2(int number, int other) {
    int state = __guest_files_lock(), result = duplicate_to(number, other);
    __guest_files_unlock(state);
    return __guest_answer(result);
}

/* There is no other process, so none has a lock, and every lock is granted. */
static int control_lock(const struct open_file *file, int command, struct flock *lock) {
    if (lock->l_type != F_RDLCK && lock->l_type != F_WRLCK && lock->l_type != F_UNLCK) return -EINVAL;
    if (command == F_GETLK) {
        lock->l_type = F_UNLCK;
        return 0;
    }
    if (lock->l_type == F_RDLCK && !reads(file)) return -EBADF;
    return lock->l_type == F_WRLCK && !writes(file) ? -EBADF : 0;
}

static int control(int number, int command, uintptr_t value) {
    const int may_be_set = O_APPEND | O_NONBLOCK | O_SYNC;
    struct open_file *file = __guest_open_file(number);
    if (!file) return -EBADF;
    switch (command) {
    case F_DUPFD:
    case F_DUPFD_CLOEXEC: return duplicate(number, (int)value);
    case F_GETFD:
    case F_SETFD: return 0;
    case F_GETFL: return file->flags;
    case F_SETFL: file->flags = (file->flags & ~may_be_set) | ((int)value & may_be_set); return 0;
    case F_GETLK:
    case F_SETLK:
    case F_SETLKW: return control_lock(file, command, (struct flock *)value);
    default: return -EINVAL;
    }
}

int fcntl(int number, int command, ...) {
    va_list rest;
    va_start(rest, command);
    uintptr_t value = va_arg(rest, uintptr_t);
    va_end(rest);
    int state = __guest_files_lock(), result = control(number, command, value);
    __guest_files_unlock(state);
    return __guest_answer(result);
}
