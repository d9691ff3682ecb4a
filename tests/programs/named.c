/* Semaphores with a name: who opens the same one, what stays, and errors. */
#include <errno.h>
#include <fcntl.h>
#include <pthread.h>
#include <semaphore.h>
#include <stdio.h>
#include <string.h>
#include <unistd.h>

enum { ROUNDS = 20 };

static char ping[40], pong[40];
static int ball;

static const char *error_name(void) {
    switch (errno) {
    case EEXIST: return "EEXIST";
    case EINVAL: return "EINVAL";
    case ENAMETOOLONG: return "ENAMETOOLONG";
    case ENOENT: return "ENOENT";
    default: return "another";
    }
}

static void say(const char *what, int is_good) { printf("%s: %s\n", what, is_good ? "0" : error_name()); }

static int count_of(sem_t *semaphore) {
    int count = -1;
    sem_getvalue(semaphore, &count);
    return count;
}

static void *returns(void *unused) {
    sem_t *first = sem_open(ping, 0), *second = sem_open(pong, O_CREAT, 0600, 5);
    for (int i = 0; i < ROUNDS; i++) {
        sem_wait(first);
        ball = 2 * ball + 1;
        sem_post(second);
    }
    sem_close(first);
    sem_close(second);
    return unused;
}

/* Opens a name, closes and unlinks it. */
static void try(const char *what, const char *name) {
    sem_t *made = sem_open(name, O_CREAT, 0600, 1);
    say(what, made != SEM_FAILED);
    if (made == SEM_FAILED) return;
    sem_close(made);
    say("its end", sem_unlink(name) == 0);
}

/* Linux takes 251 characters behind the slash, which may be left out. */
static void names(void) {
    char longest[254];
    memset(longest, 'x', sizeof longest);
    longest[0] = '/';
    longest[252] = 0;
    try("the longest", longest);
    longest[252] = 'x';
    longest[253] = 0;
    try("a longer one", longest);
    try("without a slash", pong + 1);
    sem_t *made = sem_open(ping + 1, O_CREAT | O_EXCL, 0600, 3), *again = sem_open(ping, 0);
    sem_post(made);
    printf("with it the same: %d\n", count_of(again));
    sem_close(made);
    sem_close(again);
    say("unlink with it", sem_unlink(ping) == 0);
    try("two slashes", "/a/b");
    try("an empty one", "");
}

int main(void) {
    pthread_t other;
    snprintf(ping, sizeof ping, "/ping.%d", (int)getpid());
    snprintf(pong, sizeof pong, "/pong.%d", (int)getpid());
    say("not there", sem_open(ping, 0) != SEM_FAILED);
    sem_t *first = sem_open(ping, O_CREAT, 0600, 0), *second = sem_open(pong, O_CREAT | O_EXCL, 0600, 0);
    say("make", first != SEM_FAILED && second != SEM_FAILED);
    say("make it again", sem_open(ping, O_CREAT | O_EXCL, 0600, 0) != SEM_FAILED);
    printf("the same: %d\n", sem_open(ping, O_CREAT, 0600, 7) == first);
    say("close", sem_close(first) == 0);
    pthread_create(&other, NULL, returns, NULL);
    for (int i = 0; i < ROUNDS; i++) {
        ball %= 1000;
        sem_post(first);
        sem_wait(second);
    }
    pthread_join(other, NULL);
    printf("the ball is %d\n", ball);

    sem_post(first);
    sem_close(first);
    first = sem_open(ping, 0);
    printf("what stays: %d\n", count_of(first));
    say("unlink", sem_unlink(ping) == 0);
    say("unlink it again", sem_unlink(ping) == 0);
    printf("still there: %d\n", count_of(first));
    sem_t *another = sem_open(ping, O_CREAT, 0600, 3);
    printf("another one: %d, %d\n", another != first, count_of(another));
    sem_close(first);
    sem_close(another);
    sem_unlink(ping);
    sem_close(second);
    sem_unlink(pong);
    say("too many", sem_open(ping, O_CREAT, 0600, 4000000000u) != SEM_FAILED);
    say("no name", sem_open("/", O_CREAT, 0600, 1) != SEM_FAILED);
    names();
    return 0;
}
