#include "statistics.h"
#include <math.h>

summary summary_of(const double *numbers, int count) {
    summary of = {0, 0, numbers[0], numbers[0]};
    double squares = 0;
    for (int i = 0; i < count; i++) {
        double difference = numbers[i] - of.mean;
        of.mean += difference / (i + 1);
        squares += difference * (numbers[i] - of.mean);
        of.least = fmin(of.least, numbers[i]);
        of.most = fmax(of.most, numbers[i]);
    }
    of.deviation = count > 1 ? sqrt(squares / (count - 1)) : 0;
    return of;
}
