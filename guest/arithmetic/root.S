# Roots of doubles.
#include "double.h"

# double sqrt(double). A program that has a function of this name gets its own.
routine sqrt
    .weak sqrt
    bltz a1, .Lsqrt_of_negative
sizes sqrt

# double __guest_root(double), without errno: 55 bits of the root of the mantissa, which is doubled where the exponent is
# even, and whether a rest is left.
entry __guest_root
    srli a4, a1, 20
    addi t0, a4, -1
    addi t1, x0, 2046
    bgeu t0, t1, .Lsqrt_special
.Lsqrt_join:
    # The number under the root is t2:a0: doubled where the exponent, with its bias, is even.
    lui  t0, 0x40000
    mantissa t2, a0, a1, t0, t1
    andi t0, a4, 1
    xori t0, t0, 1
    srli t1, a0, 31
    and  t1, t1, t0
    sll  t2, t2, t0
    or   t2, t2, t1
    sll  a0, a0, t0
    addi a4, a4, 1023
    srli a4, a4, 1
    addi a4, a4, -1
    addi a1, x0, 0
    addi a2, x0, 0
    addi a3, x0, 0
    addi t3, x0, 0
    addi t4, x0, 0
    addi a6, x0, 55
    # The root is t4:t3, and the rest a3:a2, which gets two more bits of t2:a0 in each round.
1:  slli a3, a3, 2
    srli t0, a2, 30
    or   a3, a3, t0
    slli a2, a2, 2
    srli t0, t2, 30
    or   a2, a2, t0
    slli t2, t2, 2
    srli t0, a0, 30
    or   t2, t2, t0
    slli a0, a0, 2
    # The root is doubled; its double with a one below is subtracted from the rest, if that is not less.
    slli t4, t4, 1
    srli t0, t3, 31
    or   t4, t4, t0
    slli t3, t3, 1
    slli t1, t4, 1
    srli t0, t3, 31
    or   t1, t1, t0
    slli t0, t3, 1
    ori  t0, t0, 1
    sltu a5, a2, t0
    sub  t0, a2, t0
    sub  t1, a3, t1
    sub  t1, t1, a5
    bltz t1, 2f
    addi a2, t0, 0
    addi a3, t1, 0
    ori  t3, t3, 1
    addi a6, a6, -1
    bnez a6, 1b
    beq  x0, x0, 3f
2:  addi t0, t0, 0
    addi t0, t0, 0
    addi t0, t0, 0
    addi a6, a6, -1
    bnez a6, 1b
    addi t0, t0, 0
    # The root goes to the top, and whether a rest is left into bit 0.
3:  or   t0, a2, a3
    sltu t0, x0, t0
    slli t2, t4, 9
    srli t1, t3, 23
    or   t2, t2, t1
    slli a0, t3, 9
    or   a0, a0, t0
    finish sqrt
.Lsqrt_special:
    slli t0, a1, 1
    or   t0, t0, a0
    beqz t0, 1f
    is_nan a1, a0
    bnez t0, .Lsqrt_nan
    bltz a1, .Lsqrt_nan
    bnez a4, .Lsqrt_infinite
    normal a1, a0, a4
    j    .Lsqrt_join
1:  addi t2, x0, 0
    j    .Lsqrt_sign
.Lsqrt_of_negative:
    tail __guest_root_of_negative
routine_end __guest_root
