/* Roots by source/arithmetic/root.S, and what they do for numbers that have none. */
#include <errno.h>
#include <math.h>

double __guest_root(double);
double __extendsfdf2(float);
float __truncdfsf2(double);

/* A double whose sign is set: a NaN and -0 are no error. */
double __guest_root_of_negative(double number) {
    if (number < 0) errno = EDOM;
    return __guest_root(number);
}

/* A root that is rounded to a double, and then to a float, is the rounded root: see single.c. By calls, since of a conversion
 * the compiler might make a call of this. */
__attribute__((weak)) float sqrtf(float number) {
    return __truncdfsf2(sqrt(__extendsfdf2(number)));
}
