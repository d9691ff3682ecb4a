# Sums and differences of doubles.
#include "double.h"

# double __subdf3(double, double), and double __adddf3(double, double) behind its first two words.
routine __subdf3
    lui  t0, 0x80000
    xor  a3, a3, t0
sizes __subdf3
entry __adddf3
    # The operand of the greater magnitude goes into a1:a0.
    slli a4, a1, 1
    slli a5, a3, 1
    sltu t0, a4, a5
    xor  t1, a4, a5
    sltiu t1, t1, 1
    sltu t2, a0, a2
    and  t1, t1, t2
    or   t0, t0, t1
    sub  t0, x0, t0
    xor  t1, a0, a2
    and  t1, t1, t0
    xor  a0, a0, t1
    xor  a2, a2, t1
    xor  t1, a1, a3
    and  t1, t1, t0
    xor  a1, a1, t1
    xor  a3, a3, t1
    exponents
    beqz a5, .Ladd_special
    addi t0, x0, 2047
    beq  a4, t0, .Ladd_special
    lui  t0, 0x40000
    mantissa t3, a2, a3, t0, t1
.Ladd_join:
    mantissa t2, a0, a1, t0, t1
    xor  a6, a1, a3
    # t3:a2 is shifted right by the difference of the exponents, by 63 at most, and what is lost is kept in bit 0.
    sub  a5, a4, a5
    sltiu t0, a5, 64
    addi t0, t0, -1
    or   a5, a5, t0
    andi a5, a5, 63
    srli t0, a5, 5
    sub  t0, x0, t0
    and  t4, a2, t0
    xor  t1, a2, t3
    and  t1, t1, t0
    xor  a2, a2, t1
    xori t0, t0, -1
    and  t3, t3, t0
    srl  t1, a2, a5
    sll  t0, t1, a5
    xor  t0, t0, a2
    or   t4, t4, t0
    slli t0, t3, 1
    xori a2, a5, -1
    sll  t0, t0, a2
    or   a2, t1, t0
    srl  t3, t3, a5
    sltu t4, x0, t4
    or   a2, a2, t4
    bltz a6, 1f
    add  a0, a0, a2
    sltu t0, a0, a2
    add  t2, t2, t3
    add  t2, t2, t0
    beq  x0, x0, 2f
1:  sltu t0, a0, a2
    sub  a0, a0, a2
    sub  t2, t2, t3
    sub  t2, t2, t0
    addi t0, t0, 0
2:  or   t0, a0, t2
    beqz t0, .Ladd_cancelled
    finish add
.Ladd_cancelled:
    addi a1, x0, 0
    j    .Ladd_sign
.Ladd_special:
    addi t0, x0, 2047
    bne  a4, t0, 2f
    # The greater one is infinite, or one is a NaN.
    is_nan a1, a0
    bnez t0, .Ladd_nan
    bne  a5, a4, .Ladd_first
    xor  t0, a1, a3
    bltz t0, .Ladd_nan
.Ladd_first:
    addi t2, a1, 0
    j    .Ladd_sign
2:  slli t0, a3, 1
    or   t0, t0, a2
    bnez t0, 3f
    # The lesser one is zero.
    bnez a4, .Ladd_first
    slli t0, a1, 1
    or   t0, t0, a0
    bnez t0, .Ladd_first
    and  a1, a1, a3
    addi t2, a1, 0
    j    .Ladd_sign
3:  # The lesser one is subnormal.
    beqz a4, 4f
    addi a5, x0, 1
    lui  t0, 0x40000
    mantissa t3, a2, a3, t0, t1
    xor  t3, t3, t0
    j    .Ladd_join
4:  # Both are: a sum of whole numbers.
    xor  t0, a1, a3
    slli t2, a1, 1
    srli t2, t2, 1
    slli t3, a3, 1
    srli t3, t3, 1
    bltz t0, 5f
    add  a0, a0, a2
    sltu t0, a0, a2
    add  t2, t2, t3
    add  t2, t2, t0
    j    .Ladd_sign
5:  sltu t0, a0, a2
    sub  a0, a0, a2
    sub  t2, t2, t3
    sub  t2, t2, t0
    or   t0, a0, t2
    bnez t0, .Ladd_sign
    addi a1, x0, 0
    j    .Ladd_sign
routine_end __adddf3
