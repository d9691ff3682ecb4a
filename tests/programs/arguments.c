/* What main gets. */
#include <stdio.h>
#include <stdlib.h>

static char zeros[300];

int main(int count, char **arguments) {
    int sum = 0;
    for (size_t i = 0; i < sizeof zeros; i++) sum += zeros[i];
    printf("%d arguments\n", count - 1);
    for (int i = 1; i < count; i++) printf("%d: [%s]\n", i, arguments[i]);
    printf("behind them %s\n", arguments[count] ? "one more" : "none");
    const char *greeting = getenv("GREETING"), *none = getenv("NO_SUCH_NAME");
    printf("%s, %s, %d\n", greeting ? greeting : "no greeting", none ? none : "none", sum);
    setenv("GREETING", "good night", 1);
    puts(getenv("GREETING"));
    return 0;
}
