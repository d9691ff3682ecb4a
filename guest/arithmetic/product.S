# Products of doubles.
#include "double.h"

# double __muldf3(double, double)
routine __muldf3
    exponents
    addi t0, a4, -1
    addi t1, a5, -1
    addi t2, x0, 2046
    bgeu t0, t2, .Lmul_special
    bgeu t1, t2, .Lmul_special
.Lmul_join:
    add  a4, a4, a5
    addi a4, a4, -1022
    lui  t0, 0x40000
    mantissa t2, a0, a1, t0, t1
    xor  a1, a1, a3
    # One factor is t2:a0. The other one becomes a3 and a2, of 27 and of 26 bits with a one above, which ends its pass.
    slli a3, a3, 12
    srli a3, a3, 6
    lui  t0, 0x0c000
    or   a3, a3, t0
    srli t1, a2, 26
    or   a3, a3, t1
    slli a2, a2, 6
    srli a2, a2, 6
    lui  t0, 0x04000
    or   a2, a2, t0
    addi a5, x0, 1
    # The product is t3:t4. Each round adds a factor and halves it; bits that are lost so are kept in t5.
    addi t3, x0, 0
    addi t4, x0, 0
    addi t5, x0, 0
1:  andi t0, a2, 1
    sub  t0, x0, t0
    and  t1, a0, t0
    and  t0, t2, t0
    add  t4, t4, t1
    sltu t1, t4, t1
    add  t3, t3, t0
    add  t3, t3, t1
    or   t5, t5, t4
    srli t4, t4, 1
    slli t0, t3, 31
    or   t4, t4, t0
    srli t3, t3, 1
    srli a2, a2, 1
    bne  a2, a5, 1b
    addi a2, a3, 0
    addi a3, x0, 1
    bne  a2, a5, 1b
    andi t5, t5, 1
    or   a0, t4, t5
    addi t2, t3, 0
    finish mul
.Lmul_special:
    addi t3, x0, 2047
    beq  a4, t3, 4f
    beq  a5, t3, 5f
    # Zeros and subnormals.
    slli t0, a1, 1
    or   t0, t0, a0
    beqz t0, 3f
    slli t0, a3, 1
    or   t0, t0, a2
    beqz t0, 3f
    bnez a4, 1f
    normal a1, a0, a4
1:  bnez a5, 2f
    normal a3, a2, a5
2:  j    .Lmul_join
3:  xor  a1, a1, a3
    j    .Lmul_zero
4:  # The first one is infinite or a NaN.
    is_nan a1, a0
    bnez t0, .Lmul_nan
    is_nan a3, a2
    bnez t0, .Lmul_nan
    slli t0, a3, 1
    or   t0, t0, a2
    beqz t0, .Lmul_nan
    xor  a1, a1, a3
    j    .Lmul_infinite
5:  # The second one is, and the first one finite.
    is_nan a3, a2
    bnez t0, .Lmul_nan
    slli t0, a1, 1
    or   t0, t0, a0
    beqz t0, .Lmul_nan
    xor  a1, a1, a3
    j    .Lmul_infinite
routine_end __muldf3
