/* More files than the heap has room for: what only goes out needs none, and what is read has its limit, by name. */
#include "telling.h"
#include <fcntl.h>
#include <stdlib.h>
#include <unistd.h>

enum { LARGE = 300000, PIECE = 1000 };

int main(void) {
    static char piece[PIECE];
    long written = 0;
    int number = open("large", O_WRONLY | O_CREAT, 0666);
    for (int i = 0; i < LARGE / PIECE; i++) {
        memset(piece, 'a' + i % 26, sizeof piece);
        if (write(number, piece, sizeof piece) != PIECE) break;
        written += PIECE;
    }
    close(number);
    TELL(written);
    TELL(open("large", O_RDONLY));
    TELL(open("large", O_RDWR));
    TELL_NULL(fopen("large", "r"));
    TELL(open("large", O_WRONLY | O_APPEND) >= 0);
    TELL(write(3, "the end", 7));

    number = open("small", O_WRONLY | O_CREAT, 0666);
    TELL(write(number, "still here", 10));
    void *block = malloc(60000);
    TELL_NULL(block);
    free(block);
    TELL(open("small", O_RDONLY) >= 0);

    number = open("read", O_RDWR | O_CREAT, 0666);
    for (written = 0; write(number, piece, PIECE) == PIECE;) written += PIECE;
    TELL(write(number, piece, PIECE));
    TELL(written > 50000);
    TELL(pread(number, piece, 3, written - 3));
    TELL(ftruncate(number, 1000));
    TELL(write(number, "more", 4));
    TELL_NULL(malloc(1 << 30));
    return 0;
}
