/*
 * Stands before every source, too. Types of 32 bits are those of Linux, int and unsigned int, where the compiler's own are
 * long ones of the same size: so a format of %u takes a uint32_t.
 */
#ifndef __ASSEMBLER__
#pragma GCC system_header
#undef __INT32_TYPE__
#undef __UINT32_TYPE__
#undef __INT_LEAST32_TYPE__
#undef __UINT_LEAST32_TYPE__
#define __INT32_TYPE__ int
#define __UINT32_TYPE__ unsigned int
#define __INT_LEAST32_TYPE__ int
#define __UINT_LEAST32_TYPE__ unsigned int
#undef __INT32_MAX__
#undef __UINT32_MAX__
#undef __INT_LEAST32_MAX__
#undef __UINT_LEAST32_MAX__
#define __INT32_MAX__ 0x7fffffff
#define __UINT32_MAX__ 0xffffffffU
#define __INT_LEAST32_MAX__ 0x7fffffff
#define __UINT_LEAST32_MAX__ 0xffffffffU
#undef __INT32_C
#undef __UINT32_C
#define __INT32_C(number) number
#define __UINT32_C(number) number##U
#endif
