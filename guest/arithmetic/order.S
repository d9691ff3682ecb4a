# Comparisons of doubles.
#include "double.h"

# The end of a comparison, with its answer in a0.
.macro answer name
.L\name\()_answer:
    addi a1, x0, 0
    addi a2, x0, 0
    addi a3, x0, 0
    addi a4, x0, 0
    addi a5, x0, 0
    addi a6, x0, 0
    ret
.endm

# The magnitudes of both operands as words in a4 and a5: the upper halves, and in bit 0 whether the lower ones are not 0.
# Where one is a NaN it goes on at unordered.
.macro magnitudes unordered
    slli a4, a1, 1
    sltu a5, x0, a0
    or   a4, a4, a5
    slli a5, a3, 1
    sltu a6, x0, a2
    or   a5, a5, a6
    lui  a6, 0xffe00
    bltu a6, a4, \unordered
    bltu a6, a5, \unordered
.endm

# A mask in a6 that is 0 where both operands are zeros, whose signs say nothing.
.macro mask_of_zeros
    or   a4, a4, a5
    sltu a6, x0, a4
.endm

# -1, 0 or 1 as the first operand is less than the second one, equal or greater; with a NaN the number that is given.
.macro order name, unordered
    magnitudes .L\name\()_unordered
    mask_of_zeros
    sub  a6, x0, a6
    # As signed numbers of 64 bits they have the same order, once the lower 63 bits of negative ones are flipped.
    srai a4, a1, 31
    srai a5, a3, 31
    xor  a0, a0, a4
    xor  a2, a2, a5
    srli a4, a4, 1
    srli a5, a5, 1
    xor  a1, a1, a4
    xor  a3, a3, a5
    slt  a4, a1, a3
    slt  a5, a3, a1
    xor  a1, a1, a3
    sltiu a1, a1, 1
    sltu a3, a0, a2
    and  a3, a3, a1
    or   a4, a4, a3
    sltu a3, a2, a0
    and  a3, a3, a1
    or   a5, a5, a3
    sub  a0, a5, a4
    and  a0, a0, a6
    answer \name
.L\name\()_unordered:
    addi a0, x0, \unordered
    j    .L\name\()_answer
.endm

# int __ledf2(double, double), by which a program finds < and <= false where one is a NaN.
routine __ledf2
entry __ltdf2
    order le, 1
routine_end __ledf2, __ltdf2

# int __gedf2(double, double), by which it finds > and >= false.
routine __gedf2
entry __gtdf2
    order ge, -1
routine_end __gedf2, __gtdf2

# int __eqdf2(double, double): 0 where they are equal.
routine __eqdf2
entry __nedf2
    magnitudes .Leq_unordered
    mask_of_zeros
    xor  a0, a0, a2
    xor  a1, a1, a3
    or   a0, a0, a1
    sltu a0, x0, a0
    and  a0, a0, a6
    answer eq
.Leq_unordered:
    addi a0, x0, 1
    j    .Leq_answer
routine_end __eqdf2, __nedf2

# int __unorddf2(double, double): 1 where one is a NaN, else 0.
routine __unorddf2
    magnitudes .Lunord_unordered
    addi a0, x0, 0
    answer unord
.Lunord_unordered:
    addi a0, x0, 1
    j    .Lunord_answer
routine_end __unorddf2
