/* Error numbers that the standard fixes, by name, since the numbers themselves differ. */
#include <errno.h>
#include <pthread.h>
#include <stdio.h>

static const char *name_of(int error) {
    switch (error) {
    case 0: return "0";
    case EAGAIN: return "EAGAIN";
    case EBUSY: return "EBUSY";
    case EDEADLK: return "EDEADLK";
    case EINVAL: return "EINVAL";
    case EPERM: return "EPERM";
    case ESRCH: return "ESRCH";
    case ETIMEDOUT: return "ETIMEDOUT";
    default: return "another";
    }
}

static void say(const char *what, int error) { printf("%-40s %s\n", what, name_of(error)); }

static pthread_mutex_t normal = PTHREAD_MUTEX_INITIALIZER, checked, recursive;
static pthread_cond_t condition = PTHREAD_COND_INITIALIZER;
static pthread_rwlock_t lock = PTHREAD_RWLOCK_INITIALIZER;

/* Called by a second thread, while the first one holds everything. */
static void *other(void *unused) {
    struct timespec past = {0, 0}, none = {0, 1000000000}, negative = {-1, 0};
    (void)unused;
    say("trylock of another's", pthread_mutex_trylock(&normal));
    say("trylock of another's recursive one", pthread_mutex_trylock(&recursive));
    say("unlock of another's, error checking", pthread_mutex_unlock(&checked));
    say("unlock of another's, recursive", pthread_mutex_unlock(&recursive));
    say("timed lock, deadline past", pthread_mutex_timedlock(&normal, &past));
    say("timed lock, deadline before all time", pthread_mutex_timedlock(&normal, &negative));
    say("timed lock, no deadline", pthread_mutex_timedlock(&normal, &none));
    say("try to read while another writes", pthread_rwlock_tryrdlock(&lock));
    say("try to write while another writes", pthread_rwlock_trywrlock(&lock));
    return NULL;
}

static void mutexes(void) {
    pthread_mutexattr_t attributes;
    int type;
    pthread_mutexattr_init(&attributes);
    say("no such type", pthread_mutexattr_settype(&attributes, 99));
    say("type", pthread_mutexattr_settype(&attributes, PTHREAD_MUTEX_ERRORCHECK));
    pthread_mutexattr_gettype(&attributes, &type);
    printf("the type is %s\n", type == PTHREAD_MUTEX_ERRORCHECK ? "kept" : "lost");
    say("init, error checking", pthread_mutex_init(&checked, &attributes));
    pthread_mutexattr_settype(&attributes, PTHREAD_MUTEX_RECURSIVE);
    say("init, recursive", pthread_mutex_init(&recursive, &attributes));
    pthread_mutexattr_destroy(&attributes);
    say("unlock of a free one, error checking", pthread_mutex_unlock(&checked));
    say("lock", pthread_mutex_lock(&normal));
    say("lock, error checking", pthread_mutex_lock(&checked));
    say("lock again, error checking", pthread_mutex_lock(&checked));
    say("lock, recursive", pthread_mutex_lock(&recursive));
    say("lock again, recursive", pthread_mutex_lock(&recursive));
    say("trylock of one's own, recursive", pthread_mutex_trylock(&recursive));
    say("trylock of one's own", pthread_mutex_trylock(&normal));
}

int main(void) {
    struct timespec past = {0, 0}, none = {0, -1};
    pthread_t id;
    pthread_barrier_t barrier;
    mutexes();
    say("write lock", pthread_rwlock_wrlock(&lock));
    say("read while writing", pthread_rwlock_rdlock(&lock));
    say("write while writing", pthread_rwlock_wrlock(&lock));
    pthread_create(&id, NULL, other, NULL);
    say("join", pthread_join(id, NULL));
    say("join oneself", pthread_join(pthread_self(), NULL));
    say("unlock of the write lock", pthread_rwlock_unlock(&lock));
    say("timed wait, deadline past", pthread_cond_timedwait(&condition, &normal, &past));
    say("timed wait, no deadline", pthread_cond_timedwait(&condition, &normal, &none));
    say("unlock, recursive, once", pthread_mutex_unlock(&recursive));
    say("unlock, recursive, twice", pthread_mutex_unlock(&recursive));
    say("unlock, recursive, three times", pthread_mutex_unlock(&recursive));
    say("unlock, recursive, once too often", pthread_mutex_unlock(&recursive));
    say("unlock", pthread_mutex_unlock(&normal));
    say("unlock, error checking", pthread_mutex_unlock(&checked));
    say("destroy", pthread_mutex_destroy(&checked));
    say("barrier for nobody", pthread_barrier_init(&barrier, NULL, 0));
    say("barrier for one", pthread_barrier_init(&barrier, NULL, 1));
    int is_serial = pthread_barrier_wait(&barrier) == PTHREAD_BARRIER_SERIAL_THREAD;
    printf("the wait for one is %s\n", is_serial ? "serial" : "not serial");
    say("no such state", pthread_setcancelstate(99, NULL));
    say("no such type", pthread_setcanceltype(99, NULL));
    say("value under no key", pthread_setspecific(9999, &normal));
    printf("there is %s\n", pthread_getspecific(9999) ? "one" : "none");
    say("delete no key", pthread_key_delete(9999));
    return 0;
}
