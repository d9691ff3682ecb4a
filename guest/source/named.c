/* Semaphores with a name, for the threads of the one process: a list of them, under the lock of all semaphores. */
#include <semaphore.h>
#include "locks.h"
#include <errno.h>
#include <fcntl.h>
#include <stdarg.h>
#include <stdbool.h>
#include <stddef.h>
#include <stdlib.h>
#include <string.h>

enum { LONGEST_NAME = 251 }; /* behind the slash, as on Linux */

struct named {
    sem_t semaphore; /* what the program has the address of */
    unsigned opened;
    bool has_name; /* it wasn't unlinked */
    struct named *next;
    char name[]; /* without the slash */
};

static struct named *first;

static void lock(void) { __guest_take_lock(&__guest_queue_lock); }
static void unlock(void) { __guest_leave_lock(&__guest_queue_lock); }

static struct named *with_name(const char *name) {
    struct named *at = first;
    while (at && !(at->has_name && strcmp(at->name, name) == 0)) at = at->next;
    return at;
}

/* Frees one that nobody has open and that has no name. */
static void remove_unused(struct named *named) {
    struct named **at = &first;
    if (named->opened || named->has_name) return;
    while (*at != named) at = &(*at)->next;
    *at = named->next;
    free(named);
}

/* NULL: the heap has no room. */
static struct named *make(const char *name, unsigned count) {
    struct named *named = malloc(sizeof *named + strlen(name) + 1);
    if (!named) return NULL;
    *named = (struct named){.has_name = true, .next = first};
    strcpy(named->name, name);
    sem_init(&named->semaphore, 0, count);
    return first = named;
}

/* Under the lock. Answers an error, or 0 and the semaphore. */
static int find_or_make(const char *name, int flags, unsigned count, struct named **found) {
    *found = with_name(name);
    if (*found) return (flags & O_CREAT) && (flags & O_EXCL) ? EEXIST : 0;
    if (!(flags & O_CREAT)) return ENOENT;
    if (count > SEM_VALUE_MAX) return EINVAL;
    *found = make(name, count);
    return *found ? 0 : ENOMEM;
}

/* The name behind its slash, which POSIX asks for and Linux doesn't. */
static const char *behind_slash(const char *name) { return name + strspn(name, "/"); }

static int check_name(const char *name) {
    size_t length = strlen(name);
    if (length > LONGEST_NAME) return ENAMETOOLONG;
    return length > 0 && !strchr(name, '/') ? 0 : EINVAL;
}

sem_t *sem_open(const char *name, int flags, ...) {
    struct named *named = NULL;
    unsigned count = 0;
    int error = check_name(name = behind_slash(name));
    if (flags & O_CREAT) {
        va_list more;
        va_start(more, flags);
        (void)va_arg(more, int); /* who may open it: there is one user */
        count = va_arg(more, unsigned);
        va_end(more);
    }
    lock();
    if (!error) error = find_or_make(name, flags, count, &named);
    if (!error) named->opened++;
    unlock();
    if (!error) return &named->semaphore;
    errno = error;
    return SEM_FAILED;
}

int sem_close(sem_t *semaphore) {
    lock();
    struct named *at = first;
    while (at && &at->semaphore != semaphore) at = at->next;
    bool is_open = at && at->opened;
    if (is_open) {
        at->opened--;
        remove_unused(at);
    }
    unlock();
    if (is_open) return 0;
    errno = EINVAL;
    return -1;
}

int sem_unlink(const char *name) {
    name = behind_slash(name);
    int error = strlen(name) > LONGEST_NAME ? ENAMETOOLONG : 0;
    lock();
    struct named *named = error ? NULL : with_name(name);
    if (named) {
        named->has_name = false;
        remove_unused(named);
    }
    unlock();
    if (named) return 0;
    errno = error ? error : ENOENT;
    return -1;
}
