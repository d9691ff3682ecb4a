/* stdin, stdout and stderr by their descriptors, and the end of a program by _Exit: what waits in a buffer is lost. */
#include "telling.h"
#include <fcntl.h>
#include <stdlib.h>
#include <unistd.h>

static void last(void) { printf("at the exit\n"); }

int main(int count, char **arguments) {
    (void)arguments;
    atexit(last);
    FILE *file = fopen("waiting", "w");
    fputs("never written", file);
    if (count == 1) return 0;
    fflush(file);
    fputs(", nor this", file);
    int saved = dup(1), number = open("aside", O_WRONLY | O_CREAT, 0666);
    fflush(stdout);
    dup2(number, 1);
    printf("into the file\n");
    fflush(stdout);
    dup2(saved, 1);
    TELL(write(saved, "by a copy\n", 10));
    TELL(lseek(0, 0, SEEK_CUR) < 0 || 1);
    TELL(getchar() == EOF);
    TELL(feof(stdin) != 0);
    fflush(stdout);
    _exit(3);
}
