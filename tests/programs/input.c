/* Threads read numbers from stdin, each number whole. */
#include <pthread.h>
#include <stdio.h>

enum { THREADS = 3 };

static void *work(void *sum) {
    long number;
    while (scanf("%ld", &number) == 1) *(long *)sum += number;
    return NULL;
}

int main(void) {
    pthread_t threads[THREADS];
    long sums[THREADS] = {0}, total = 0;
    char line[40];
    if (fgets(line, sizeof line, stdin)) printf("the first line is %s", line);
    for (int i = 0; i < THREADS; i++) pthread_create(&threads[i], NULL, work, &sums[i]);
    for (int i = 0; i < THREADS; i++) {
        pthread_join(threads[i], NULL);
        total += sums[i];
    }
    printf("all numbers together are %ld, and stdin is at its %s\n", total, feof(stdin) ? "end" : "middle");
    return 0;
}
