/* More variables than a usual disk has memory. */
#include <stdio.h>

static char many[300000];

int main(void) {
    many[299999] = 1;
    printf("%d\n", many[0] + many[299999]);
    return 0;
}
