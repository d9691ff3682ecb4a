/* The mean of numbers, and how far they are from it. */
#ifndef STATISTICS_H
#define STATISTICS_H

typedef struct {
    double mean, deviation, least, most;
} summary;

summary summary_of(const double *numbers, int count);

#endif
