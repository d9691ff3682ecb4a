/* A long double that is to be read by a format. */
#include <stdio.h>

int main(void) {
    long double value = 0;
    char text[] = "1.5";
    printf("%s\n", "begin");
    return sscanf(text, "%Lf", &value) == 1;
}
