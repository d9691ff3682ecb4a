# Floats, by doubles.
#
# A sum, a product or a quotient of two floats is rounded to a double, and that to a float. That is the rounded result, as if
# it were rounded once. Products are exact in a double. A sum or a quotient that no float hits, nor the middle between two,
# is further from each of these than a double's rounding goes, since a double has 53 bits, and 53 >= 2 * 24 + 2. So it is
# with roots, and with results that are subnormal as floats, which have fewer bits.
#
# The routines for doubles leave a7 and t6 alone, and __extendsfdf2 changes no more than a0 to a3. So no memory is touched.
#include "routine.h"

.macro by_doubles name, operation
routine \name
    addi t6, ra, 0
    .cfi_register ra, t6
    addi a7, a0, 0
    addi a0, a1, 0
    jal  __extendsfdf2
    addi a4, a0, 0
    addi a5, a1, 0
    addi a0, a7, 0
    jal  __extendsfdf2
    addi a2, a4, 0
    addi a3, a5, 0
    jal  \operation
    addi ra, t6, 0
    .cfi_restore ra
    j    __truncdfsf2
routine_end \name
.endm

# float __addsf3(float, float), and its kin
by_doubles __addsf3, __adddf3
by_doubles __subsf3, __subdf3
by_doubles __mulsf3, __muldf3
by_doubles __divsf3, __divdf3

# A conversion by a double, from or to a word.
.macro by_double name, first, second
routine \name
    addi t6, ra, 0
    .cfi_register ra, t6
    jal  \first
    addi ra, t6, 0
    .cfi_restore ra
    j    \second
routine_end \name
.endm

# float __floatsisf(int), float __floatunsisf(unsigned), int __fixsfsi(float) and unsigned __fixunssfsi(float)
by_double __floatsisf, __floatsidf, __truncdfsf2
by_double __floatunsisf, __floatunsidf, __truncdfsf2
by_double __fixsfsi, __extendsfdf2, __fixdfsi
by_double __fixunssfsi, __extendsfdf2, __fixunsdfsi

# float __negsf2(float)
routine __negsf2
    lui  a1, 0x80000
    xor  a0, a0, a1
    ret
routine_end __negsf2

# Goes on at unordered where one of two floats is a NaN, else a2 is 0 where both are zeros.
.macro unordered_or_zeros unordered
    slli a2, a0, 1
    slli a3, a1, 1
    lui  a4, 0xff000
    bltu a4, a2, \unordered
    bltu a4, a3, \unordered
    or   a2, a2, a3
.endm

# -1, 0 or 1 as the first float is less than the second one, equal or greater; with a NaN the number that is given.
.macro order_of_floats unordered
    unordered_or_zeros 2f
    beqz a2, 1f
    srai a4, a0, 31         # the order is that of signed words, once the lower bits of negative ones are flipped
    srli a4, a4, 1
    xor  a0, a0, a4
    srai a4, a1, 31
    srli a4, a4, 1
    xor  a1, a1, a4
    slt  a2, a0, a1
    slt  a3, a1, a0
    sub  a0, a3, a2
    ret
1:  addi a0, x0, 0
    ret
2:  addi a0, x0, \unordered
    ret
.endm

# int __lesf2(float, float), by which < and <= are false where one is a NaN.
routine __lesf2
entry __ltsf2
    order_of_floats 1
routine_end __lesf2, __ltsf2

# int __gesf2(float, float), by which > and >= are.
routine __gesf2
entry __gtsf2
    order_of_floats -1
routine_end __gesf2, __gtsf2

# int __eqsf2(float, float): 0 where they are equal.
routine __eqsf2
entry __nesf2
    unordered_or_zeros 2f
    beqz a2, 1f
    xor  a0, a0, a1
    ret
1:  addi a0, x0, 0
    ret
2:  addi a0, x0, 1
    ret
routine_end __eqsf2, __nesf2

# int __unordsf2(float, float): 1 where one is a NaN, else 0.
routine __unordsf2
    unordered_or_zeros 2f
    addi a0, x0, 0
    ret
2:  addi a0, x0, 1
    ret
routine_end __unordsf2
