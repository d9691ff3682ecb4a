/* How a program ends by a signal; ENDING is what it does last. */
#include <signal.h>
#include <stdio.h>
#include <stdlib.h>

static void tell(int number) { printf("signal %d\n", number == SIGABRT ? 1 : 2); }

int main(void) {
    atexit(abort); /* never called */
    signal(SIGABRT, tell);
    puts("begin");
    ENDING;
    return 0;
}
