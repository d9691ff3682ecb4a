# What the routines for doubles have in common: macros of the assembler.
#
# A double comes in two registers, the low word first. A routine begins with its common case, in which operands and result
# are normal numbers. That is one run of instructions up to the first `ret`, made for a machine that does all of it at once:
#
# - it touches no memory, and has no jump or call; a branch that is always taken stands for a jump;
# - two arms of a branch have the same length, so only normalising changes how many steps it has;
# - scratch registers are 0 at its end.
#
# Zeros, subnormals, infinities and NaNs branch to what stands behind that `ret`, and so does an overflow or an underflow.
# The runtime knows the common cases by their words: words.txt lists them, and tests/guests/arithmetic compares.
#include "routine.h"

# The mantissa of hi:lo, shifted left by 10, so that its hidden bit is bit 62; one is 1 << 30.
.macro mantissa hi, lo, source, one, t
    slli \hi, \source, 12
    srli \hi, \hi, 2
    or   \hi, \hi, \one
    srli \t, \lo, 22
    or   \hi, \hi, \t
    slli \lo, \lo, 10
.endm

# The exponents of both operands into a4 and a5.
.macro exponents
    slli a4, a1, 1
    srli a4, a4, 21
    slli a5, a3, 1
    srli a5, a5, 21
.endm

# The end of a routine whose result is t2:a0, not 0, with the sign in bit 31 of a1. a4 is the exponent less one that the
# number has if bit 63 is its first bit. It is normalised, rounded to even and packed. With z leading zeros: 37 + 6 z steps.
.macro finish name
    bltz t2, 2f
1:  slli t2, t2, 1
    srli t0, a0, 31
    or   t2, t2, t0
    slli a0, a0, 1
    addi a4, a4, -1
    bgez t2, 1b
2:  addi t0, x0, 2046
    bgeu a4, t0, .L\name\()_range
.L\name\()_round:
    andi t0, a0, 2047
    srli a0, a0, 11
    slli t1, t2, 21
    or   a0, a0, t1
    srli t2, t2, 11
    andi t1, a0, 1
    add  t0, t0, t1
    sltiu t0, t0, 1025
    xori t0, t0, 1
    add  a0, a0, t0
    sltu t0, a0, t0
    add  t2, t2, t0
    slli a4, a4, 20
    add  t2, t2, a4
.L\name\()_sign:
    srli a1, a1, 31
    slli a1, a1, 31
    or   a1, a1, t2
    addi a2, x0, 0
    addi a3, x0, 0
    addi a4, x0, 0
    addi a5, x0, 0
    addi a6, x0, 0
    addi t0, x0, 0
    addi t1, x0, 0
    addi t2, x0, 0
    addi t3, x0, 0
    addi t4, x0, 0
    addi t5, x0, 0
    ret

# The exponent is too large, or so small that the result is subnormal: that is shifted right, and what is lost kept in bit 0.
.L\name\()_range:
    bge  a4, x0, .L\name\()_infinite
    addi t0, x0, -64
    bge  a4, t0, 1f
    addi a4, t0, 0
1:  andi t0, a0, 1
    srli a0, a0, 1
    or   a0, a0, t0
    slli t0, t2, 31
    or   a0, a0, t0
    srli t2, t2, 1
    addi a4, a4, 1
    bnez a4, 1b
    j    .L\name\()_round
.L\name\()_infinite:
    addi a0, x0, 0
    lui  t2, 0x7ff00
    j    .L\name\()_sign
.L\name\()_nan:
    addi a0, x0, 0
    addi a1, x0, 0
    lui  t2, 0x7ff80
    j    .L\name\()_sign
.L\name\()_zero:
    addi a0, x0, 0
    addi t2, x0, 0
    j    .L\name\()_sign
.endm

# Sets t0 where hi:lo is a NaN, by t1.
.macro is_nan hi, lo
    slli t1, \hi, 1
    sltu t0, x0, \lo
    or   t1, t1, t0
    lui  t0, 0xffe00
    sltu t0, t0, t1
.endm

# A subnormal hi:lo, not 0, is shifted until bit 52 is set, and gets the exponent that it then has. By t0, t1 and t2.
.macro normal hi, lo, exponent
    lui  t2, 0x100
    srli t0, \hi, 31
    slli t0, t0, 31
    xor  \hi, \hi, t0
    addi \exponent, x0, 1
8:  slli \hi, \hi, 1
    srli t1, \lo, 31
    or   \hi, \hi, t1
    slli \lo, \lo, 1
    addi \exponent, \exponent, -1
    bltu \hi, t2, 8b
    or   \hi, \hi, t0
.endm
