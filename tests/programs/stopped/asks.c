// A thread asks for a line, and waits for it.
#include <stdio.h>

int main(void) {
    int sum = 0;
    for (int c = getchar(); c != EOF && c != '\n'; c = getchar())
        sum += c;
    printf("sum %d\n", sum);
    return 0;
}
