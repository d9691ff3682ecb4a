/* Numbers of 64 bits, as the kit's arithmetic has them in two words. */
#include <stdint.h>

typedef uint32_t word;
typedef uint64_t wide;

static inline word upper(wide number) { return (word)(number >> 32); }
static inline word lower(wide number) { return (word)number; }
static inline wide joined(word upper, word lower) { return (wide)upper << 32 | lower; }
