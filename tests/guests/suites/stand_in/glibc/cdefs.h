/* What headers of glibc's tests take from headers of glibc. */
#ifndef STAND_IN_GLIBC_H
#define STAND_IN_GLIBC_H

#include <sys/cdefs.h>
#include <sys/types.h>

#define __attribute_malloc__
#define __attribute_alloc_size__(places)
#define __attribute_alloc_align__(place)
#define __attribute_warn_unused_result__
#define __attribute_noinline__ __attribute__((noinline))
#define __attr_dealloc(call, place)
#define __attr_dealloc_free
#define __returns_nonnull
#define __nonnull(places)
#define __THROW
#define __glibc_likely(condition) (condition)
#define __glibc_unlikely(condition) (condition)
#define array_length(array) (sizeof(array) / sizeof *(array))

typedef off_t off64_t, loff_t;

#endif
