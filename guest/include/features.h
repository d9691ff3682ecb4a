/* The header of Linux of that name: which features of the C library are asked for. */
#include <sys/features.h>
