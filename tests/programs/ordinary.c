/* What ordinary programs ask of a system: lines, descriptors, names, attributes, clocks and locks with deadlines. */
#define _GNU_SOURCE
#include <errno.h>
#include <pthread.h>
#include <stdio.h>
#include <stdlib.h>
#include <string.h>
#include <time.h>
#include <unistd.h>

static pthread_rwlock_t lock = PTHREAD_RWLOCK_INITIALIZER;
static pthread_mutex_t mutex = PTHREAD_MUTEX_INITIALIZER;
static pthread_cond_t never = PTHREAD_COND_INITIALIZER;

static const char *name_of(int error) {
    switch (error) {
    case 0: return "0";
    case EBUSY: return "EBUSY";
    case EINVAL: return "EINVAL";
    case ERANGE: return "ERANGE";
    case ETIMEDOUT: return "ETIMEDOUT";
    default: return "another";
    }
}

static void say(const char *what, int error) { printf("%-32s %s\n", what, name_of(error)); }

static struct timespec after(int milliseconds) {
    struct timespec time;
    clock_gettime(CLOCK_REALTIME, &time);
    time.tv_sec += milliseconds / 1000;
    time.tv_nsec += milliseconds % 1000 * 1000000L;
    if (time.tv_nsec >= 1000000000) {
        time.tv_nsec -= 1000000000;
        time.tv_sec++;
    }
    return time;
}

static void *reads(void *unused) {
    struct timespec soon = after(3), none = {0, -1};
    say("read, soon", pthread_rwlock_timedrdlock(&lock, &soon));
    say("write, soon", pthread_rwlock_timedwrlock(&lock, &soon));
    say("write, no time", pthread_rwlock_timedwrlock(&lock, &none));
    return unused;
}

static void *writes(void *unused) {
    struct timespec late = after(1000000);
    say("write, late", pthread_rwlock_timedwrlock(&lock, &late));
    say("unlock", pthread_rwlock_unlock(&lock));
    return unused;
}

static void deadlines(void) {
    pthread_t other;
    struct timespec soon = after(2), pause = {0, 2000000};
    say("write", pthread_rwlock_timedwrlock(&lock, &soon));
    pthread_create(&other, NULL, reads, NULL);
    pthread_join(other, NULL);
    pthread_create(&other, NULL, writes, NULL);
    nanosleep(&pause, NULL);
    pthread_rwlock_unlock(&lock);
    pthread_join(other, NULL);
    say("read, free", pthread_rwlock_timedrdlock(&lock, &soon));
    say("unlock", pthread_rwlock_unlock(&lock));
    pthread_mutex_lock(&mutex);
    soon = after(2);
    say("wait, soon", pthread_cond_timedwait(&never, &mutex, &soon));
    pthread_mutex_unlock(&mutex);
}

static void *named(void *unused) {
    char name[16], here;
    pthread_attr_t attributes;
    void *stack;
    size_t bytes;
    int state;
    say("name", pthread_setname_np(pthread_self(), "a worker"));
    pthread_getname_np(pthread_self(), name, sizeof name);
    printf("the name is %s\n", name);
    say("name, too long", pthread_setname_np(pthread_self(), "a name with too many letters"));
    pthread_getattr_np(pthread_self(), &attributes);
    pthread_attr_getstack(&attributes, &stack, &bytes);
    pthread_attr_getdetachstate(&attributes, &state);
    printf("the stack is %s\n", &here >= (char *)stack && &here < (char *)stack + bytes ? "its own" : "another");
    printf("it has %s\n", bytes >= 32768 ? "what was asked for" : "less");
    printf("it is %s\n", state == PTHREAD_CREATE_JOINABLE ? "joinable" : "detached");
    pthread_attr_destroy(&attributes);
    return unused;
}

static void attributes(void) {
    pthread_t other;
    pthread_attr_t made;
    pthread_mutexattr_t private;
    int shared;
    pthread_attr_init(&made);
    say("stack", pthread_attr_setstacksize(&made, 32768));
    say("scope", pthread_attr_setscope(&made, PTHREAD_SCOPE_SYSTEM));
    pthread_create(&other, &made, named, NULL);
    pthread_join(other, NULL);
    pthread_attr_destroy(&made);
    pthread_mutexattr_init(&private);
    say("private", pthread_mutexattr_setpshared(&private, PTHREAD_PROCESS_PRIVATE));
    pthread_mutexattr_getpshared(&private, &shared);
    printf("it is %s\n", shared == PTHREAD_PROCESS_PRIVATE ? "private" : "shared");
    say("shared, or not", pthread_mutexattr_setpshared(&private, 99));
}

static void lines(void) {
    char *line = NULL, byte[8];
    size_t room = 0;
    ssize_t count;
    while ((count = getline(&line, &room, stdin)) != -1 && strcmp(line, "---\n") != 0) printf("%d: %s", (int)count, line);
    while ((count = getdelim(&line, &room, ';', stdin)) != -1) printf("%d: [%s]\n", (int)count, line);
    printf("at the end: %d\n", (int)read(STDIN_FILENO, byte, sizeof byte));
    free(line);
}

static void system_calls(void) {
    fflush(stdout);
    printf("written: %d\n", (int)write(STDERR_FILENO, "", 0));
    printf("no such file: %s\n", write(99, "", 1) == -1 && errno == EBADF ? "EBADF" : "another");
    printf("the process is %s\n", getpid() > 0 ? "there" : "not there");
    printf("there are %s\n", sysconf(_SC_NPROCESSORS_ONLN) > 0 ? "processors" : "none");
    printf("a page has %s\n", sysconf(_SC_PAGESIZE) >= 4096 ? "its bytes" : "too few");
    printf("the clock is %s\n", clock() != (clock_t)-1 && CLOCKS_PER_SEC == 1000000 ? "read" : "not read");
}

int main(void) {
    lines();
    deadlines();
    attributes();
    system_calls();
    return 0;
}
