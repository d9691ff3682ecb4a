/* What glibc's tests compute with. */
#ifndef STAND_IN_INTPROPS_H
#define STAND_IN_INTPROPS_H

#define TYPE_SIGNED(type) (!((type)0 < (type)-1))
#define TYPE_MAXIMUM(type) ((type)(TYPE_SIGNED(type) ? ((((type)1 << (sizeof(type) * 8 - 2)) - 1) * 2 + 1) : (type)-1))
#define TYPE_MINIMUM(type) ((type)(TYPE_SIGNED(type) ? ~TYPE_MAXIMUM(type) : (type)0))
#define INT_ADD_WRAPV(first, second, result) __builtin_add_overflow((first), (second), (result))
#define INT_SUBTRACT_WRAPV(first, second, result) __builtin_sub_overflow((first), (second), (result))
#define INT_MULTIPLY_WRAPV(first, second, result) __builtin_mul_overflow((first), (second), (result))

#endif
