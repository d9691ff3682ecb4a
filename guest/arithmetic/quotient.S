# Quotients of doubles.
#include "double.h"

# double __divdf3(double, double)
routine __divdf3
    exponents
    addi t0, a4, -1
    addi t1, a5, -1
    addi t2, x0, 2046
    bgeu t0, t2, .Ldiv_special
    bgeu t1, t2, .Ldiv_special
.Ldiv_join:
    sub  a4, a4, a5
    addi a4, a4, 1022
    xor  a5, a1, a3
    # The rest is t2:a0 at first, and twice the divisor a3:a2.
    lui  t0, 0x00100
    slli t2, a1, 12
    srli t2, t2, 12
    or   t2, t2, t0
    addi a1, a5, 0
    slli a3, a3, 12
    srli a3, a3, 12
    or   a3, a3, t0
    slli a3, a3, 1
    srli t0, a2, 31
    or   a3, a3, t0
    slli a2, a2, 1
    lui  a5, 0x10000
    addi t5, x0, 0
    # In two passes of 28 rounds, the first one's quotient goes to t5, the second one's is t3. The one above ends a pass.
.Ldiv_pass:
    addi t3, x0, 1
1:  slli t2, t2, 1
    srli t0, a0, 31
    or   t2, t2, t0
    slli a0, a0, 1
    slli t3, t3, 1
    sltu t0, a0, a2
    sub  t1, a0, a2
    sub  t4, t2, a3
    sub  t4, t4, t0
    bltz t4, 2f
    addi a0, t1, 0
    addi t2, t4, 0
    addi t3, t3, 1
    bltu t3, a5, 1b
    beq  x0, x0, 3f
2:  addi t0, t0, 0
    addi t0, t0, 0
    addi t0, t0, 0
    bltu t3, a5, 1b
    addi t0, t0, 0
3:  bnez t5, 4f
    addi t5, t3, 0
    beq  x0, x0, .Ldiv_pass
    # 56 bits of the quotient go to the top, and whether a rest is left into bit 0.
4:  or   t0, a0, t2
    sltu t1, x0, t0
    slli t3, t3, 4
    slli a0, t3, 4
    or   a0, a0, t1
    srli t3, t3, 28
    slli t2, t5, 4
    or   t2, t2, t3
    finish div
.Ldiv_special:
    addi t3, x0, 2047
    beq  a4, t3, 4f
    beq  a5, t3, 5f
    slli t0, a3, 1
    or   t0, t0, a2
    beqz t0, 6f
    slli t0, a1, 1
    or   t0, t0, a0
    beqz t0, 3f
    bnez a4, 1f
    normal a1, a0, a4
1:  bnez a5, 2f
    normal a3, a2, a5
2:  j    .Ldiv_join
3:  xor  a1, a1, a3
    j    .Ldiv_zero
4:  # The first one is infinite or a NaN.
    is_nan a1, a0
    bnez t0, .Ldiv_nan
    beq  a5, t3, .Ldiv_nan
    xor  a1, a1, a3
    j    .Ldiv_infinite
5:  # The second one is, and the first one finite.
    is_nan a3, a2
    bnez t0, .Ldiv_nan
    j    3b
6:  # By zero.
    slli t0, a1, 1
    or   t0, t0, a0
    beqz t0, .Ldiv_nan
    xor  a1, a1, a3
    j    .Ldiv_infinite
routine_end __divdf3
